enum { idle, run };
int mode;
int main(void)
{
    mode = idle;
    run = 2;
}
