int level;
#ifdef FAST
int step = 2;
#endif

int main(void)
{
    while (level < 100)
        level += step;
}
