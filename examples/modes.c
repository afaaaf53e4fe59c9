// A controller's modes are constants: a request within its limits keeps it running, and any other is a fault.
enum { IDLE, RUN, FAULT };
enum { LEAST = -10, MOST = 90, };
int mode;
int request;
int main(void)
{
    while (mode != FAULT) {
        request = input();
        if (request < LEAST || request > MOST)
            mode = FAULT;
        else
            mode = RUN;
        assert(mode != IDLE);
        assert(request <= MOST);
    }
    assert(mode == FAULT);
}
