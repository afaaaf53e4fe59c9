int mask;
int main(void)
{
    mask = 0xFFFFFFFF;
}
