int level;

int main(void)
{
    while (level < 100)
        level++;
}
