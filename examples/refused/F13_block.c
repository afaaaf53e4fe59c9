/* A name behind the block of its declaration. */
int level;
int main(void)
{
    {
        int step = 5;
        level = step;
    }
    level = level - step;
}
