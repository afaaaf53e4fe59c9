int level;
int step = 1;

int main(void)
{
    while (level < 100)
        level += step;
}
