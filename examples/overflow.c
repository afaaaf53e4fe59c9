int reading = 900;
int offset = 2147483000;
int total;
int main(void)
{
    reading = reading - 100;
    assert(reading > 0);
    total = reading + offset;
    assert(total >= reading);
}
