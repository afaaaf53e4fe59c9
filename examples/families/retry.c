/* A block is sent in chunks, each again until it is answered, but not too often. */
enum { OK, NAK, TIMEOUT };
int transmit(void);

int main(void)
{
    int size = input();
    int sent = 0, retries = 0, window = CONFIG_WINDOW;
    if (size < 0 || size > 100000)
        return -1;
    while (sent < size) {
        int chunk = size - sent;
        if (chunk > window)
            chunk = window;
        int answer = transmit();
        if (answer == OK) {
            sent += chunk;
            retries = 0;
#ifdef CONFIG_GROW
            if (window < 64)
                window *= 2;
#endif
            continue;
        }
#ifdef CONFIG_SHRINK
        if (answer == NAK)
            window /= 2;
#endif
        retries++;
        if (retries > CONFIG_RETRIES)
            return -1;
        assert(window > 0);
        assert(retries <= CONFIG_RETRIES);
    }
    assert(sent == size);
    return sent;
}
