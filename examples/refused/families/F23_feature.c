int count;
int main(void)
{
    SIZE = 4;
    while (count < SIZE)
        count++;
}
