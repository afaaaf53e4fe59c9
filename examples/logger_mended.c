#include <assert.h>
/* The data logger of logger.c, mended: the count of ticks starts anew at 0 before it
   leaves int. As 16 divides 2147483648, the ring buffer goes on where it was. */
extern int input(void);

static int tick, head;
static int sample, millivolts;
static int running = 1;

int main(void)
{
    while (running) {
        sample = input();
        if (sample < 0 || sample > 4095)
            sample = 0;
        millivolts = sample * 3300 / 4095;
        assert(millivolts <= 3300);
        head = tick % 16;
        assert(head >= 0 && head < 16);
        if (tick == 2147483647)
            tick = 0;
        else
            tick++;
        running = input();
    }
    return 0;
}
