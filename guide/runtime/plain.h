/* Standard input, standard output and the end of a program without a C library. */

#ifndef PLAIN_H
#define PLAIN_H

#include <stddef.h>

/* Reads `length` bytes of standard input, or fewer where it ends, and answers how many. */
size_t read_all(void *bytes, size_t length);

/* Writes all `length` bytes to standard output. */
void write_all(const void *bytes, size_t length);

/* Ends the run with a code. */
_Noreturn void exit(int code);

/* As in <string.h>. */
void *memcpy(void *to, const void *from, size_t length);
void *memmove(void *to, const void *from, size_t length);
void *memset(void *to, int value, size_t length);
int memcmp(const void *one, const void *other, size_t length);

#endif
