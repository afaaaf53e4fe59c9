int level;
int size;

int main(void)
{
    size = SIZE;
    if (size > 8)
        size = 8;
    while (level < size)
        level++;
}
