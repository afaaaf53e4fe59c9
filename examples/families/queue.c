#include <assert.h>
/* a small queue, in many versions */
extern int input(void);
int count;
int tries = 3;
int logged;
int load;

int main(void)
{
    load = input();
#if defined(SAFE)
    if (load < 0 || load > 100)
        load = 0;
#elif SIZE >= 8
    if (load > 1000)
        load = 1000;
#endif
    while (count < 10) {
        count++;
#ifdef LOG
        logged++;
#endif
    }
#ifdef BULK
    load = load * 2;
#endif
#if RETRY && LIMIT > 0
    while (tries > 0)
        tries--;
    assert(tries == 0);
#endif
#ifdef FAST
    count = 100 / tries;
#else
    count = 100 / (tries + 1);
#endif
    assert(count >= 0);
    return 0;
}
