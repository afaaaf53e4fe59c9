int ring[16];
int head;

int main(void)
{
    while (head < 16) {
        ring[head] = 0;
        head++;
    }
}
