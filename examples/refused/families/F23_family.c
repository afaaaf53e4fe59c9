#ifdef FAST
const int limit = 4;
#else
int limit = 8;
#endif
int main(void)
{
    limit--;
}
