int x;
int main(void)
{
    // why??/
    x = 1;
}
