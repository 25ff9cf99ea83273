unsigned long long volatile wide = 1000000000000;
int main(void)
{
    return (int)(wide / 10000000000);
}
