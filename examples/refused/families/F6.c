int count;
int main(void)
{
#ifdef FAST
    count = 1;
}
