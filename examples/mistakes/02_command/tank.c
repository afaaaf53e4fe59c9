int level;
int step = 1;

int main(void)
{
#ifdef FAST
    step = 2;
#endif
    while (level < 100)
        level += step;
}
