int level = 2000000000;

int main(void)
{
    level = 0;
}
