#include <stdio.h>
unsigned long long volatile wide = 1000000000000;
int main(void)
{
    printf("%llu\n", wide / 10);
    return 0;
}
