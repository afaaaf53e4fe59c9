/* The payload of a frame is copied, if the frame has a length that it may have. */
#if CONFIG_MTU >= 1500
#define MTU 1500
#elif CONFIG_MTU >= 256
#define MTU 256
#else
#define MTU 64
#endif
#ifdef CONFIG_VLAN
#define HEADER 18
#else
#define HEADER 14
#endif
#if CONFIG_PAYLOAD >= 1486
#define ROOM 1486
#elif CONFIG_PAYLOAD >= 242
#define ROOM 242
#else
#define ROOM 32
#endif
int at;

int main(void)
{
    int length = input();
    if (length < HEADER || length > MTU)
        return -1;
    int body = length - HEADER;
#ifdef CONFIG_CHECKSUM
    if (body < 4)
        return -1;
    body -= 4;
#endif
#ifdef CONFIG_LENGTH_CHECK
    if (body > ROOM)
        return -1;
#endif
    for (at = 0; at < body; at++) {
        assert(HEADER + at < MTU);
        assert(at < ROOM);
    }
    return body;
}
