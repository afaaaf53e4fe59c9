/* the assertions
   of the sensor */ #include <assert.h>
int main(void)
{
    assert(1);
}
