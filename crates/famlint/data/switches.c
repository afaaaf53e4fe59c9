int x;
int main(void) {
#ifdef F1
x++;
x--;
#endif
#ifdef F2
x++;
x--;
#endif
#ifdef F3
x++;
x--;
#endif
#ifdef F4
x++;
x--;
#endif
#ifdef F5
x++;
x--;
#endif
#ifdef F6
x++;
x--;
#endif
#ifdef F7
x++;
x--;
#endif
#ifdef F8
x++;
x--;
#endif
#ifdef F9
x++;
x--;
#endif
#ifdef F10
x++;
x--;
#endif
#ifdef F11
x++;
x--;
#endif
#ifdef F12
x++;
x--;
#endif
#ifdef F13
x++;
x--;
#endif
#ifdef F14
x++;
x--;
#endif
#ifdef F15
x++;
x--;
#endif
#ifdef F16
x++;
x--;
#endif
#ifdef F17
x++;
x--;
#endif
#ifdef F18
x++;
x--;
#endif
#ifdef F19
x++;
x--;
#endif
#ifdef F20
x++;
x--;
#endif
#ifdef F21
x++;
x--;
#endif
#ifdef F22
x++;
x--;
#endif
#ifdef F23
x++;
x--;
#endif
#ifdef F24
x++;
x--;
#endif
#ifdef F25
x++;
x--;
#endif
#ifdef F26
x++;
x--;
#endif
#ifdef F27
x++;
x--;
#endif
#ifdef F28
x++;
x--;
#endif
#ifdef F29
x++;
x--;
#endif
#ifdef F30
x++;
x--;
#endif
}
