enum { low = 2147483647, high };
int main(void)
{
    assert(low < high);
}
