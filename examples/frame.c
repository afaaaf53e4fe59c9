#include <assert.h>
/* Fills a frame with samples of two bytes, and sends each at once. */
static int filled;
static int sent;

int main(void)
{
    while (filled < 99) {
        filled += 2;
        sent += 2;
    }
    assert(sent == 100);
}
