int step = 1;
int level;

int main(void)
{
#if SIZE >= 8
    step = 8;
#endif
    level += step;
}
