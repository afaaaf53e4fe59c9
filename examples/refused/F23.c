const int limit = 100;
int level;
int main(void)
{
    limit = level + 1;
}
