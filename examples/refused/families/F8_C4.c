int count;
int main(void)
{
#ifdef __linux__
    count = 1;
#endif
}
