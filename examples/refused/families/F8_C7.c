#define LIMIT 8
int count;
int main(void)
{
#if SIZE > LIMIT
    count = LIMIT;
#endif
}
