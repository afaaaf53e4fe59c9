#ifdef FAST
int limit = 4;
#endif
int count;
int main(void)
{
    while (count < limit)
        count++;
}
