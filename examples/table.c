#include <assert.h>
/* A table of 16 squares is filled when the program starts. Of the array the assertion of its index is left. */
static int i;
static int entry;

int main(void)
{
    for (i = 0; i <= 16; i++) {
        assert(i >= 0 && i < 16);
        entry = i * i;
    }
    return 0;
}
