int level;
int main(void)
{
    level = limit - 1;
}
