#include <assert.h>

/* A valve opens as far as a level stands above 80, and is shut above 20. Below 20 nothing is said of it. */
int main(void)
{
    const int high = 80;
    int level = input();
    if (level < 0 || level > 100)
        level = 0;

    int opening;
    if (level > high)
        opening = level - high;
    else if (level > 20)
        opening = 0;
    assert(opening >= 0 && opening <= 20);
    return 0;
}
