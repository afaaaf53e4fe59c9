#include <assert.h>
/* A ring of 8 messages. One is put in where the line is ready. */
extern int input(void);

static int head;
static int ready;

int main(void)
{
    while (1) {
        ready = input();
        if (ready) {
            assert(head >= 0 && head < 8);
            head = (head + 1) % 8;
        }
    }
}
