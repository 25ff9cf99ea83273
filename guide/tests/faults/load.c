char bytes[8];
int main(void)
{
    char *volatile at = bytes + 1;
    return *(int *)at;
}
