#include <assert.h>
#include <stdio.h>
int main(int argc, char **argv)
{
    puts("halfway");
    assert(argc > 0 && argv[0] != NULL);
    return 0;
}
