/* Counts the lines, words and bytes of standard input, as wc does. */

#include "../runtime/plain.h"

static void put_number(unsigned number, char end)
{
    char digits[12];
    char *at = digits + sizeof digits;
    *--at = end;
    do {
        *--at = (char)('0' + number % 10);
        number /= 10;
    } while (number > 0);
    write_all(at, (size_t)(digits + sizeof digits - at));
}

static int is_blank(char c)
{
    return c == ' ' || ('\t' <= c && c <= '\r');
}

int main(void)
{
    static char buffer[64];
    unsigned lines = 0, words = 0, bytes = 0;
    int in_word = 0;
    size_t taken;
    while ((taken = read_all(buffer, sizeof buffer)) > 0) {
        for (size_t i = 0; i < taken; i++) {
            char c = buffer[i];
            lines += c == '\n';
            words += !in_word && !is_blank(c);
            in_word = !is_blank(c);
        }
        bytes += taken;
    }
    put_number(lines, ' ');
    put_number(words, ' ');
    put_number(bytes, '\n');
    return 0;
}
