/* Prints what a C program may ask of the runtime. runtime.out has the answers of the C and POSIX standards. */

#include <errno.h>
#include <fcntl.h>
#include <inttypes.h>
#include <stdio.h>
#include <stdlib.h>
#include <string.h>
#include <sys/stat.h>
#include <time.h>
#include <unistd.h>

static const char *error(int answer)
{
    return answer != -1      ? "none"
           : errno == EBADF  ? "EBADF"
           : errno == ENOENT ? "ENOENT"
           : errno == ENOMEM ? "ENOMEM"
           : errno == EROFS  ? "EROFS"
           : errno == ESPIPE ? "ESPIPE"
                             : "another";
}

static int constructed;
static _Thread_local int own = 7, own_zero;
static int zero[1000], seven = 7;

__attribute__((constructor)) static void at_start(void)
{
    constructed = seven;
}

__attribute__((destructor)) static void at_end(void)
{
    puts("destructor");
}

static void last_wish(void)
{
    puts("atexit");
}

static void memory(void)
{
    int sum = 0;
    for (int i = 0; i < 1000; i++)
        sum += zero[i];
    printf("memory %d %d %d %d %d\n", constructed, own, own_zero, sum, own_zero + seven);
    char *volatile much = malloc(10000);
    memset(much, 'x', 1000);
    printf("malloc %d %c\n", much != NULL, much[999]);
    free(much);
    void *volatile too_much = malloc(0x7ffffff0);
    printf("malloc %d %s\n", too_much != NULL, error(-1));
}

/* At each offset in a word, so that calls move 1 to 4 bytes. */
static void short_counts(void)
{
    char line[32];
    for (int offset = 0; offset < 4; offset++) {
        ssize_t taken = read(STDIN_FILENO, line + offset, 10);
        fflush(stdout);
        ssize_t given = write(STDOUT_FILENO, line + offset, (size_t)taken);
        printf(" %d %d\n", (int)taken, (int)given);
    }
}

static void absent(void)
{
    char byte = 0;
    struct stat about;
    printf("open %s %s\n", error(open("file", O_RDONLY)), error(open("file", O_WRONLY | O_CREAT, 0666)));
    printf("fopen %s\n", fopen("file", "r") == NULL ? error(-1) : "none");
    printf("read %s, write %s, close %s\n", error((int)read(3, &byte, 1)), error((int)write(3, &byte, 1)), error(close(3)));
    printf("lseek %s, fstat %s\n", error((int)lseek(0, 0, SEEK_SET)), error(fstat(3, &about)));
    printf("fstat %s, fifo %d, isatty %d\n", error(fstat(0, &about)), S_ISFIFO(about.st_mode) != 0, isatty(1));
    printf("time %d, clock %d\n", (int)time(NULL), (int)clock());
    printf("stderr %d\n", fprintf(stderr, "nothing\n"));
}

int main(int argc, char **argv)
{
    atexit(last_wish);
    printf("words %d %d\n", argc, argv[0] == NULL);
    memory();
    short_counts();
    int32_t whole = 0;
    uint64_t wide = 0;
    if (scanf("%" SCNd32 " %" SCNu64, &whole, &wide) == 2)
        printf("numbers %" PRId32 " %" PRIu64 " %" PRIx64 "\n", whole / 10, wide / 10, wide);
    absent();
    exit(3);
}
