/* What newlib and picolibc ask of a system: newlib by names with an underscore, picolibc by names without.

   The machine has standard input, standard output and standard error, which keeps nothing, and an end. There are no files, no
   time, no signals and no other processes, and a call for one fails as POSIX says. One call of the machine moves at most the
   bytes up to the end of the word (4 bytes) in which the buffer begins, so reading and writing stand in loops. */

#include "memory.h"

#include <errno.h>
#include <fcntl.h>
#include <signal.h>
#include <stddef.h>
#include <stdio.h>
#include <stdlib.h>
#include <string.h>
#include <sys/stat.h>
#include <sys/time.h>
#include <sys/times.h>
#include <sys/types.h>
#include <unistd.h>

enum { READ = 63, WRITE = 64, EXIT = 93 };
enum { BAD_FILE = -9 }; /* the machine's answer for a file that isn't open */
enum { THIS_PROCESS = 1 };

/* newlib's name is `_name`, and picolibc's `name`. */
#define ALSO(name) __typeof__(_##name) name __attribute__((weak, alias("_" #name)))

static long call(long number, long first, const void *second, size_t third)
{
    register long a0 __asm__("a0") = first;
    register const void *a1 __asm__("a1") = second;
    register size_t a2 __asm__("a2") = third;
    register long a7 __asm__("a7") = number;
    __asm__ volatile("ecall" : "+r"(a0) : "r"(a1), "r"(a2), "r"(a7) : "memory");
    return a0;
}

static int fails(int error)
{
    errno = error;
    return -1;
}

static int is_open(int file)
{
    return STDIN_FILENO <= file && file <= STDERR_FILENO;
}

/* Moves bytes until `length` are moved or no more come. */
static ssize_t move(long number, int file, const char *bytes, size_t length)
{
    size_t moved = 0;
    do {
        long taken = call(number, file, bytes + moved, length - moved);
        if (taken < 0 && moved == 0)
            return fails(taken == BAD_FILE ? EBADF : EIO);
        if (taken <= 0)
            break;
        moved += (size_t)taken;
    } while (moved < length);
    return (ssize_t)moved;
}

ssize_t _read(int file, void *bytes, size_t length)
{
    return move(READ, file, bytes, length);
}
ALSO(read);

ssize_t _write(int file, const void *bytes, size_t length)
{
    return move(WRITE, file, bytes, length);
}
ALSO(write);

_Noreturn void _exit(int code)
{
    for (;;)
        call(EXIT, code, NULL, 0);
}

extern char __heap_start[], __heap_end[];

void *_sbrk(ptrdiff_t more)
{
    static char *end = __heap_start;
    if (more > __heap_end - end || more < __heap_start - end)
        return (void *)(long)fails(ENOMEM);
    end += more;
    return end - more;
}
ALSO(sbrk);

/* Files */

int _open(const char *name, int flags, ...)
{
    (void)name;
    return fails(flags & O_CREAT ? EROFS : ENOENT);
}
ALSO(open);

int _close(int file)
{
    return is_open(file) ? 0 : fails(EBADF);
}
ALSO(close);

off_t _lseek(int file, off_t offset, int whence)
{
    (void)offset, (void)whence;
    return fails(is_open(file) ? ESPIPE : EBADF);
}
ALSO(lseek);

int _fstat(int file, struct stat *about)
{
    if (!is_open(file))
        return fails(EBADF);
    memset(about, 0, sizeof *about);
    about->st_mode = S_IFIFO;
    return 0;
}
ALSO(fstat);

int _isatty(int file)
{
    errno = is_open(file) ? ENOTTY : EBADF;
    return 0;
}
ALSO(isatty);

int _stat(const char *name, struct stat *about)
{
    (void)name, (void)about;
    return fails(ENOENT);
}
ALSO(stat);

int _unlink(const char *name)
{
    (void)name;
    return fails(ENOENT);
}
ALSO(unlink);

int _link(const char *name, const char *other)
{
    (void)name, (void)other;
    return fails(ENOENT);
}
ALSO(link);

/* Time */

int _gettimeofday(struct timeval *now, void *zone)
{
    (void)now, (void)zone;
    return fails(ENOSYS);
}
ALSO(gettimeofday);

clock_t _times(struct tms *spent)
{
    (void)spent;
    return (clock_t)fails(ENOSYS);
}
ALSO(times);

int _getentropy(void *bytes, size_t length)
{
    (void)bytes, (void)length;
    return fails(ENOSYS);
}
ALSO(getentropy);

/* Processes and signals */

pid_t _getpid(void)
{
    return THIS_PROCESS;
}
ALSO(getpid);

/* A signal that nothing catches ends the run as a shell tells it, as 134 for abort. */
int _kill(pid_t process, int signal)
{
    if (process != THIS_PROCESS)
        return fails(ESRCH);
    if (signal != 0)
        _exit(128 + signal);
    return 0;
}
ALSO(kill);

int sigprocmask(int how, const sigset_t *set, sigset_t *old)
{
    (void)how, (void)set;
    if (old != NULL)
        memset(old, 0, sizeof *old);
    return 0;
}

pid_t _fork(void)
{
    return fails(EAGAIN);
}
ALSO(fork);

pid_t _wait(int *status)
{
    (void)status;
    return fails(ECHILD);
}
ALSO(wait);

int _execve(const char *name, char *const *words, char *const *names)
{
    (void)name, (void)words, (void)names;
    return fails(ENOENT);
}
ALSO(execve);

#ifdef __PICOLIBC__

/* picolibc leaves its streams to the system. Here each of them but standard error has a buffer. */

static char to_read[512], to_write[512];
static size_t given, got, kept;

static int get(FILE *stream)
{
    (void)stream;
    if (given == got) {
        ssize_t taken = _read(STDIN_FILENO, to_read, sizeof to_read);
        if (taken < 0)
            return _FDEV_ERR;
        if (taken == 0)
            return _FDEV_EOF;
        given = 0;
        got = (size_t)taken;
    }
    return (unsigned char)to_read[given++];
}

static int flush(FILE *stream)
{
    (void)stream;
    size_t length = kept;
    kept = 0;
    return _write(STDOUT_FILENO, to_write, length) == (ssize_t)length ? 0 : EOF;
}

static int put(char c, FILE *stream)
{
    to_write[kept++] = c;
    return kept == sizeof to_write ? flush(stream) : 0;
}

static int put_error(char c, FILE *stream)
{
    (void)stream;
    return _write(STDERR_FILENO, &c, 1) == 1 ? 0 : EOF;
}

static FILE input = FDEV_SETUP_STREAM(NULL, get, NULL, _FDEV_SETUP_READ);
static FILE output = FDEV_SETUP_STREAM(put, NULL, flush, _FDEV_SETUP_WRITE);
static FILE errors = FDEV_SETUP_STREAM(put_error, NULL, NULL, _FDEV_SETUP_WRITE);

__attribute__((used)) FILE *const stdin = &input;
__attribute__((used)) FILE *const stdout = &output;
__attribute__((used)) FILE *const stderr = &errors;

/* Of the program's functions at the end, the last. */
__attribute__((destructor(101))) static void flush_at_end(void)
{
    flush(stdout);
}

#else

/* newlib leaves the program's functions at the end to the start code. */

typedef void function(void);
extern function *__fini_array_start[], *__fini_array_end[];

static void end(void)
{
    for (function **next = __fini_array_end; next > __fini_array_start;)
        (*--next)();
}

__attribute__((constructor(101))) static void start(void)
{
    atexit(end);
}

#endif
