int level = 3000000000;

int main(void)
{
    level = 0;
}
