int count;
int main(void)
{
#ifdef FATS
    count = 1;
#endif
}
