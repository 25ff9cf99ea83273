/* A program without a C library: standard input and output, and the end.

   One call of the machine moves at most the bytes up to the end of the word (4 bytes) in which the buffer begins, so each stands
   in a loop. */

#include "memory.h"
#include "plain.h"

enum { READ = 63, WRITE = 64, EXIT = 93 };
enum { STANDARD_INPUT = 0, STANDARD_OUTPUT = 1 };

static long call(long number, long first, const void *second, size_t third)
{
    register long a0 __asm__("a0") = first;
    register const void *a1 __asm__("a1") = second;
    register size_t a2 __asm__("a2") = third;
    register long a7 __asm__("a7") = number;
    __asm__ volatile("ecall" : "+r"(a0) : "r"(a1), "r"(a2), "r"(a7) : "memory");
    return a0;
}

size_t read_all(void *bytes, size_t length)
{
    char *at = bytes;
    char *end = at + length;
    while (at < end) {
        long taken = call(READ, STANDARD_INPUT, at, (size_t)(end - at));
        if (taken <= 0)
            break;
        at += taken;
    }
    return (size_t)(at - (char *)bytes);
}

void write_all(const void *bytes, size_t length)
{
    const char *at = bytes;
    const char *end = at + length;
    while (at < end) {
        long taken = call(WRITE, STANDARD_OUTPUT, at, (size_t)(end - at));
        if (taken <= 0)
            exit(1);
        at += taken;
    }
}

void exit(int code)
{
    for (;;)
        call(EXIT, code, NULL, 0);
}
