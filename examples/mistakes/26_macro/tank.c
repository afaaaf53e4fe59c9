#define WIDTH 4
#define HEIGHT 3
#define AREA (WIDTH * HEIGHT)
int level;

int main(void)
{
    while (level < AREA)
        level++;
}
