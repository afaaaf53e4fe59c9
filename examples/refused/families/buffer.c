int count;

int main(void)
{
    while (count < 10)
        count++;
#ifdef FAST
    assert(count == 10);
#endif
}
