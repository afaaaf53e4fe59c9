#include <assert.h>
#include "tank.h"

int main(void)
{
    level = 0;
}
