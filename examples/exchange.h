/*
 * What the examples share: they read the exchange in a file, which is a line of
 * date, time and control number and then the interchange, as in samples/, and
 * print an answer to it.
 */
#ifndef EXCHANGE_H
#define EXCHANGE_H

#include <inttypes.h>
#include <stdbool.h>
#include <stdio.h>
#include <stdlib.h>

/* One byte more than an interchange may have, so that a longer one is seen to be too long. */
enum { INTERCHANGE = 65536 + 1, RESPONSE = 65536 };

struct exchange {
    uint32_t date, time, control;
    uint8_t interchange[INTERCHANGE];
    size_t length;
};

/* The name of the example, which it gives itself. */
extern const char program[];

static void stop(const char *what)
{
    fprintf(stderr, "%s: %s\n", program, what);
    exit(2);
}

/* Whether a number of so many digits comes next, and right behind it the byte `end`. */
static bool read_number(FILE *file, int fewest, int most, int end, uint32_t *number)
{
    int byte = fgetc(file), digits = 0;
    *number = 0;
    while (digits < most && byte >= '0' && byte <= '9') {
        *number = *number * 10 + (uint32_t)(byte - '0');
        digits++;
        byte = fgetc(file);
    }
    return digits >= fewest && byte == end;
}

/* Reads the file that the command line names. */
static void read_exchange(struct exchange *exchange, int argc, char **argv)
{
    if (argc != 2)
        stop("give the file of one exchange");
    FILE *file = fopen(argv[1], "rb");
    if (file == NULL)
        stop("cannot open the file");
    if (!read_number(file, 8, 8, ' ', &exchange->date) ||
        !read_number(file, 4, 4, ' ', &exchange->time) ||
        !read_number(file, 1, 9, '\n', &exchange->control))
        stop("the first line is not date, time and control number");
    exchange->length = fread(exchange->interchange, 1, INTERCHANGE, file);
    if (ferror(file))
        stop("cannot read the file");
    fclose(file);
}

/* Prints a response where the number of the answer is 0, and else `refused` and the number. */
static void print_answer(uint32_t number, const uint8_t *response, size_t length)
{
    if (number == 0)
        fwrite(response, 1, length, stdout);
    else
        printf("refused %" PRIu32 "\n", number);
    if (fflush(stdout) != 0)
        stop("cannot write the answer");
}

#endif
