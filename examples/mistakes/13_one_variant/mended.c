int level;
#ifdef FAST
int step = 2;
#else
int step = 1;
#endif

int main(void)
{
    while (level < 100)
        level += step;
}
