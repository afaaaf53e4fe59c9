enum { A, B, C, D, E, F, G, H, I, J, K, L, M, N, O, P };
int size;
int main(void)
{
    size = SIZE + P;
}
