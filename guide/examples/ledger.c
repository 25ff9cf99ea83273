/* Copies a table in CSV (RFC 4180) from standard input to standard output: its header, and each row whose field under "amount" is
   1000 or more. Ends with 1 where the table has no such column, and with 2 where a quote isn't closed. */

#include <stdio.h>
#include <stdlib.h>
#include <string.h>

enum { LEAST = 1000 };

/* A row as it stands in the input, line end and all, and behind it a zero byte. */
struct row {
    char *text;
    size_t length, room;
};

static void fail(int code, const char *why)
{
    fputs(why, stderr);
    exit(code);
}

static void append(struct row *row, char c)
{
    if (row->length + 1 >= row->room) {
        row->room = 2 * row->room + 64;
        row->text = realloc(row->text, row->room);
        if (row->text == NULL)
            fail(3, "no memory\n");
    }
    row->text[row->length++] = c;
    row->text[row->length] = '\0';
}

/* Reads the next row, and answers whether there was one. A line end between quotes is part of a field. */
static int read_row(struct row *row)
{
    int c, quoted = 0;
    row->length = 0;
    while ((c = getchar()) != EOF) {
        append(row, (char)c);
        quoted ^= c == '"';
        if (c == '\n' && !quoted)
            break;
    }
    if (quoted)
        fail(2, "a quote isn't closed\n");
    return row->length > 0;
}

/* The field behind this one, or null. */
static const char *next_field(const char *at)
{
    int quoted = 0;
    for (; *at != '\0'; at++) {
        quoted ^= *at == '"';
        if (*at == ',' && !quoted)
            return at + 1;
    }
    return NULL;
}

static int is_named(const char *field, const char *name)
{
    field += *field == '"';
    size_t length = strlen(name);
    return strncmp(field, name, length) == 0 && strchr("\",\r\n", field[length]) != NULL;
}

static int column_of(const char *header, const char *name)
{
    int column = 0;
    for (const char *field = header; field != NULL; field = next_field(field)) {
        if (is_named(field, name))
            return column;
        column++;
    }
    fail(1, "no such column\n");
    return -1;
}

static long number_in(const char *row, int column)
{
    const char *field = row;
    while (field != NULL && column-- > 0)
        field = next_field(field);
    return field == NULL ? 0 : strtol(field + (*field == '"'), NULL, 10);
}

int main(void)
{
    struct row row = {0};
    if (!read_row(&row))
        fail(1, "no header\n");
    int amount = column_of(row.text, "amount");
    do {
        fwrite(row.text, 1, row.length, stdout);
        while (read_row(&row) && number_in(row.text, amount) < LEAST) {
        }
    } while (row.length > 0);
    return 0;
}
