int level;
int empty;

int main(void)
{
    if (level == 0)
        empty = 1;
}
