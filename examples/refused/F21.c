int level;
int main(void)
{
#ifdef FAST
    level = 1;
#endif
}
