int main(void)
{
    assert("level" == 0);
}
