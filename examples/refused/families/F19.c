int count;
int level;
int main(void)
{
    if (count > 8)
        level = 1;
#ifdef FAST
    else
        level = 2;
#endif
}
