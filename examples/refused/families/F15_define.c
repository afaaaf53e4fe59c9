#define SIZE 16
int count;
int main(void)
{
    count = SIZE;
}
