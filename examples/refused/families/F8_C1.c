int count;
int main(void)
{
#ifdef FAST SIZE
    count = 1;
#endif
}
