int count;
int main(void)
{
#if (SIZE > 4) + FAST > 1
    count = 1;
#endif
}
