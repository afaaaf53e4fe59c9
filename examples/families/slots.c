/* A sample at each tick, in a ring buffer of blocks of 8 places; the configuration says how many places. */
int tick;
int block;

int main(void)
{
    while (tick < 100000) {
        tick++;
        block = tick % (SLOTS / 8);
        assert(block >= 0 && block < SLOTS);
    }
}
