#define LIMIT (99 + 1)
int level;
int main(void)
{
    assert(level < LIMIT);
}
