int level;
static int level = 5;
int main(void)
{
    level = 0;
}
