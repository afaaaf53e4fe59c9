/* Counts the digits of a line, and stops at 16 of them. */
int byte, digits, hexadecimal;

static int most = 0x10;

int main(void)
{
    byte = input();
    while (byte != '\n' && digits < most) {
        if (byte >= '0' && byte <= '9')
            digits++;
        else if (byte >= 'a' && byte <= '\x66')
            hexadecimal = 1;
        byte = input();
    }
    assert(digits <= 020);
    assert(hexadecimal >= '\0');
}
