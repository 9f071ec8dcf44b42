/*
 * other_table LENGTH: lends the first LENGTH bytes of a room that is full of dots. Prints the length that is answered
 * for the set on standard input, a line feed, and the whole room.
 */
#include <stddef.h>
#include <stdint.h>
#include <stdio.h>
#include <stdlib.h>
#include <string.h>

enum { SET = 1000, ROOM = 1000 };

/* Stands in crates/other_table/src/lib.rt. */
size_t x12_other_table_notes(const uint8_t *set, size_t set_length, uint8_t *out, size_t out_length);

static void stop(const char *what)
{
    fprintf(stderr, "other_table: %s\n", what);
    exit(2);
}

static size_t length_in(const char *text)
{
    char *end;
    unsigned long length = strtoul(text, &end, 10);
    if (end == text || *end != '\0' || length > ROOM)
        stop("give a length up to that of the room");
    return length;
}

int main(int argc, char **argv)
{
    static uint8_t set[SET + 1], room[ROOM];

    if (argc != 2)
        stop("give the length that is lent");
    size_t lent = length_in(argv[1]);
    size_t length = fread(set, 1, sizeof set, stdin);
    if (ferror(stdin) || length > SET)
        stop("cannot read the set");
    memset(room, '.', ROOM);
    printf("%zu\n", x12_other_table_notes(set, length, room, lent));
    fwrite(room, 1, ROOM, stdout);
    if (fflush(stdout) != 0)
        stop("cannot write the answer");
    return EXIT_SUCCESS;
}
