int level;
int step = 1;

int main(void)
{
    level += step;
}
