/* A pump that is driven by a sensor: both stand in other files. */
int level(void);
void start(void);

int depth;
int speed;

int main(void)
{
    while (1) {
        depth = level();
        if (depth < 0 || depth > 100)
            depth = 0;
        start();
        speed = 1000 / (depth + 1);
        assert(speed >= 9);
    }
}
