int head;

int main(void)
{
    while (head < 16) {
        assert(head >= 0 && head < 16);
        head++;
    }
}
