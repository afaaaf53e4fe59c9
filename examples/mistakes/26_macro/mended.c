#define WIDTH 4
#define HEIGHT 3
int level;

int main(void)
{
    while (level < WIDTH * HEIGHT)
        level++;
}
