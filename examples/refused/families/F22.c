int size;
int main(void)
{
    size = AREA + SIDE;
}
