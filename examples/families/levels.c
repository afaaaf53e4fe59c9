// The levels of a controller: a constant has another value in each variant.
#ifdef FAST
enum { HIGH = 3 };
#else
enum { LOW = 4, HIGH };
#endif
int main(void)
{
    assert(HIGH < 5);
}
