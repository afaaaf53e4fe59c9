#include <assert.h>
/* A data logger. Each tick of one millisecond takes a sample and puts it into a
   ring buffer with 16 places. A sample is 0 to 4095, for 0 to 3300 millivolts. */
extern int input(void);

static int tick, head;
static int sample, millivolts;
static int running = 1;

int main(void)
{
    while (running) {
        sample = input();
        if (sample < 0 || sample > 4095)
            sample = 0;
        millivolts = sample * 3300 / 4095;
        assert(millivolts <= 3300);
        head = tick % 16;
        assert(head >= 0 && head < 16);
        tick++;
        running = input();
    }
    return 0;
}
