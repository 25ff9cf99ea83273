#include <stdio.h>
int main(void)
{
    printf("%d %d\n", -442704, -65504);
    return 0;
}
