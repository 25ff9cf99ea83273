/* Loaded before the C library: the allocation whose number, from 1 on, stands in REFUSED fails. At the end it tells
   how many allocations were asked for and how many are still held. */
#define _GNU_SOURCE
#include <errno.h>
#include <stdatomic.h>
#include <stdio.h>
#include <stdlib.h>
#include <sys/syscall.h>
#include <unistd.h>

extern void *__libc_malloc(size_t);
extern void *__libc_calloc(size_t, size_t);
extern void *__libc_realloc(void *, size_t);
extern void *__libc_memalign(size_t, size_t);
extern void __libc_free(void *);

static atomic_long asked, held;
static long refused = -1;

static int refuses(void)
{
    return atomic_fetch_add(&asked, 1) + 1 == refused;
}

static void *holds(void *block)
{
    if (block)
        atomic_fetch_add(&held, 1);
    else
        errno = ENOMEM;
    return block;
}

void *malloc(size_t size)
{
    return holds(refuses() ? NULL : __libc_malloc(size));
}

/* The C library alone asks so, for a thread's stack, which it keeps for the next thread: not counted as held. */
void *calloc(size_t count, size_t size)
{
    void *block = refuses() ? NULL : __libc_calloc(count, size);
    if (!block)
        errno = ENOMEM;
    return block;
}

void *realloc(void *block, size_t size)
{
    void *other;
    if (refuses()) {
        errno = ENOMEM;
        return NULL;
    }
    other = __libc_realloc(block, size);
    if (!block && other)
        atomic_fetch_add(&held, 1);
    return other;
}

void *aligned_alloc(size_t alignment, size_t size)
{
    return holds(refuses() ? NULL : __libc_memalign(alignment, size));
}

int posix_memalign(void **block, size_t alignment, size_t size)
{
    *block = aligned_alloc(alignment, size);
    return *block ? 0 : ENOMEM;
}

void free(void *block)
{
    if (block)
        atomic_fetch_sub(&held, 1);
    __libc_free(block);
}

__attribute__((constructor)) static void begin(void)
{
    char const *number = getenv("REFUSED");
    atomic_store(&asked, 0);
    atomic_store(&held, 0);
    refused = number ? atol(number) : -1;
}

static void tell(void)
{
    char line[64];
    int length = snprintf(line, sizeof line, "asked %ld held %ld\n", atomic_load(&asked), atomic_load(&held));
    if (write(STDERR_FILENO, line, length) != length)
        abort();
}

__attribute__((destructor)) static void end(void)
{
    tell();
}

/* An end without destructors. */
void _exit(int status)
{
    tell();
    syscall(SYS_exit_group, status);
    __builtin_unreachable();
}
