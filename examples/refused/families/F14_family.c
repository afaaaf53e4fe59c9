int limit = 4;
#if SIZE >= 8
int limit = 8;
#endif
int main(void)
{
    limit = limit + 1;
}
