int level;
int main(void)
{
    unsigned tick = 0;
    level = tick + 1;
}
