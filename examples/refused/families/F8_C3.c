int count;
int main(void)
{
#if SIZE * 65536 * 65536 > 0
    count = 1;
#endif
}
