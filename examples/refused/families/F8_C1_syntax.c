int count;
int main(void)
{
#if 20 --SIZE > 4
    count = 1;
#endif
}
