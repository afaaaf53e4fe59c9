#include <assert.h>
#include <stdint.h>
#include "board.h"

int level;

int main(void)
{
    level = level + 1;
    assert(level == 1);
}
