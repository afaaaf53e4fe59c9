/* A ring buffer of bytes: what comes is put into it, else one is taken. */
int uart_ready(void);
int uart_read(void);

int main(void)
{
    static int head, tail, count;
#if CONFIG_RB_BITS <= 3
    const int size = 8;
#elif CONFIG_RB_BITS <= 5
    const int size = 32;
#else
    const int size = 128;
#endif
    for (;;) {
        int ready = uart_ready();
        if (ready) {
            int c = uart_read();
            if (count == size) {
#ifdef CONFIG_OVERWRITE
                tail = (tail + 1) % size;
#else
                continue;
#endif
            } else {
                count++;
            }
            assert(head >= 0 && head < size);
            head = (head + 1) % size;
        } else {
            if (count == 0)
                continue;
            assert(tail >= 0 && tail < size);
            tail = (tail + 1) % size;
#ifndef CONFIG_NO_COUNT
            count--;
#endif
        }
        assert(count <= size);
        assert(count != 0 || head == tail);
    }
}
