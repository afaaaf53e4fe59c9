int count;
int main(void)
{
    if (FAST)
        count++;
}
