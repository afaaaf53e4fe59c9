/* The weight of a filter is a constant of the build, and its number of taps is a feature. */
#ifdef FAST
#define WEIGHT 2
#else
#define WEIGHT (3)
#endif
#define LEAST -100
int level;
int sum;

int main(void)
{
    level = input();
    if (level < LEAST || level > 100)
        level = 0;
    sum = level * WEIGHT / TAPS;
    assert(sum < 250);
}
