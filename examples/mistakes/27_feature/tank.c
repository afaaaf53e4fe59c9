int level;

int main(void)
{
    if (SIZE > 8)
        SIZE = 8;
    while (level < SIZE)
        level++;
}
