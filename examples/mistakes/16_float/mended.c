int level;

int main(void)
{
    level = 0;
}
