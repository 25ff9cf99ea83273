char bytes[8];
int main(void)
{
    char *volatile at = bytes + 2;
    *(int *)at = 42;
    return 0;
}
