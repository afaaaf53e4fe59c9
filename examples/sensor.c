#include <assert.h>
/* A counter, and a sensor whose value is
   brought within 0 to 100. */
extern int input(void);

int count;
int load;

int main(void)
{
    load = input();
    if (load < 0 || load > 100)
        load = 0;
    while (count < 10)
        count++;
    assert(count == 10); // narrowing gives 10
    load = 1000 / load;
    return 0;
}
