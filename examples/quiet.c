int width = 640;
int height = -480;
int margin;
int main()
{
    margin = width + height - 100;
    assert(margin == 60);
    assert(margin <= width);
}
