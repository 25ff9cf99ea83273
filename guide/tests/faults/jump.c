int main(void)
{
    int (*volatile nowhere)(void) = (int (*)(void))0x10002;
    return nowhere();
}
