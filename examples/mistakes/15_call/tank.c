int level;

int main(void)
{
    level = sensor(4);
}
