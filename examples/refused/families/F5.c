int count;
int main(void)
{
    count = 1;
#endif
}
