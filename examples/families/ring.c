/* A sample at each tick, in a ring buffer. */
int tick;
int head;
int size;

int main(void)
{
#if SLOTS >= 32
    size = 32;
#elif SLOTS >= 8
    size = 8;
#endif
    while (tick < 100000) {
        tick++;
        head = tick % size;
        assert(head >= 0 && head < 32);
    }
}
