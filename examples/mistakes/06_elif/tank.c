int step = 1;

int main(void)
{
#ifdef FAST
    step = 2;
#else
    step = 4;
#elif SIZE > 8
    step = 8;
#endif
}
