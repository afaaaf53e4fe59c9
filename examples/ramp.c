/* The ramp of a stepper motor, in words that such code has: int32_t, and the short forms of assignments. */
#include <assert.h>

static int32_t phase;
static int32_t speed = 1;
signed int steps;

int main(void) {
    steps = input();
    if (steps < 0 || steps > 1000) steps = 1000;
    while (steps > 0) {
        --steps;
        if (speed < 400) speed *= 2; else speed /= 2;
        ++phase;
        phase %= 4;
        assert(phase >= 0 && phase < 4);
        assert(speed > 0);
    }
    return 0;
}
