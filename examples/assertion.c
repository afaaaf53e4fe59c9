int level = 900;
int limit = 1000;
int main(void)
{
    level = level - limit;
    assert(level > 0 - 200);
    assert(level >= 0);
    level = 0;
}
