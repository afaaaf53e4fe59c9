int a, b, c, d, e, f, g, h, i, j, k, l, m, n, o, p, q;
int main(void)
{
    q = 1;
}
