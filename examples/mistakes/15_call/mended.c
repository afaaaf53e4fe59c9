int level;

int main(void)
{
    level = input();
}
