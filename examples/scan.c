/* Looks for the end of a message of at most 16 bytes, and forgets that it may have none. */
int byte;
int at;

int main(void)
{
    do {
        byte = input();
        if (byte == '\n')
            break;
        at++;
    } while (at < 16);
    assert(at < 16);
    return at;
}
