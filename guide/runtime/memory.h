/* The four functions that compilers call on their own. Libraries built for size move one byte at a time, at four steps or more;
   these move four words at a time where both places allow it. One file of a program includes this one. */

#include <stddef.h>
#include <stdint.h>

typedef uint32_t __attribute__((may_alias)) word;
enum { WORD = sizeof(word), BATCH = 4 * WORD };

/* The linker must find it, whatever was compiled into one. The empty assembly keeps a compiler from taking a loop for the call
   itself. */
#define FOUND __attribute__((used))
#define KEEP_LOOP __asm__ volatile("")

static int is_aligned(const void *at)
{
    return (uintptr_t)at % WORD == 0;
}

FOUND void *memset(void *to, int value, size_t length)
{
    unsigned char *at = to, *end = at + length;
    word four = (unsigned char)value * 0x01010101u;
    for (; at < end && !is_aligned(at); at++)
        *at = (unsigned char)value;
    for (; end - at >= BATCH; at += BATCH) {
        word *words = (word *)at;
        words[0] = four, words[1] = four, words[2] = four, words[3] = four;
        KEEP_LOOP;
    }
    for (; at < end; at++) {
        *at = (unsigned char)value;
        KEEP_LOOP;
    }
    return to;
}

/* From the first byte to the last, so `to` may also lie within `from` if it begins before it. */
FOUND void *memcpy(void *to, const void *from, size_t length)
{
    unsigned char *at = to, *end = at + length;
    const unsigned char *source = from;
    if (is_aligned((void *)((uintptr_t)to ^ (uintptr_t)from))) {
        while (at < end && !is_aligned(at))
            *at++ = *source++;
        for (; end - at >= BATCH; at += BATCH, source += BATCH) {
            const word *words = (const word *)source;
            word a = words[0], b = words[1], c = words[2], d = words[3];
            word *copies = (word *)at;
            copies[0] = a, copies[1] = b, copies[2] = c, copies[3] = d;
            KEEP_LOOP;
        }
    }
    while (at < end) {
        *at++ = *source++;
        KEEP_LOOP;
    }
    return to;
}

FOUND void *memmove(void *to, const void *from, size_t length)
{
    unsigned char *at = to;
    const unsigned char *source = from;
    if (at <= source || at >= source + length)
        return memcpy(to, from, length);
    while (length-- > 0) {
        at[length] = source[length];
        KEEP_LOOP;
    }
    return to;
}

FOUND int memcmp(const void *one, const void *other, size_t length)
{
    const unsigned char *a = one, *b = other;
    for (; length > 0; length--, a++, b++)
        if (*a != *b)
            return *a - *b;
    return 0;
}
