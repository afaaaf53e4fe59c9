int count;
int main(void)
{
#if PIN == 1 || PIN == 3 || PIN == 5 || PIN == 7 || PIN == 9 || PIN == 11 || PIN == 13 || PIN == 15 || PIN == 17 || PIN == 19 || PIN == 21 || PIN == 23 || PIN == 25 || PIN == 27 || PIN == 29 || PIN == 31 || PIN == 33 || PIN == 35 || PIN == 37 || PIN == 39 || PIN == 41 || PIN == 43 || PIN == 45 || PIN == 47 || PIN == 49 || PIN == 51 || PIN == 53 || PIN == 55 || PIN == 57 || PIN == 59 || PIN == 61 || PIN == 63 || PIN == 65
    count = 1;
#endif
}
