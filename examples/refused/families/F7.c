int count;
int main(void)
{
#ifdef FAST
    count = 4;
#else
    count = 1;
#elif SIZE > 8
    count = 8;
#endif
}
