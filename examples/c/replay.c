/* Replays stored calls through the archive and compares whole answers: replay CALLS ANSWERS. */
#include <inttypes.h>
#include <stdio.h>
#include <stdlib.h>
#include <string.h>

#include "roots.h"

#define MOST 40
#define ROOM 2048

static double of_bits(uint64_t bits)
{
    double x;
    memcpy(&x, &bits, sizeof x);
    return x;
}

static uint64_t to_bits(double x)
{
    uint64_t bits;
    memcpy(&bits, &x, sizeof bits);
    return bits;
}

/* The next field of a line, past its spaces and cut off at the next one. */
static char *field(char **at)
{
    char *start = *at + strspn(*at, " ");
    char *end = start + strcspn(start, " \r\n");
    *at = *end == '\0' ? end : end + 1;
    *end = '\0';
    return start;
}

static double next_double(char **at)
{
    return of_bits(strtoull(field(at), NULL, 16));
}

/* Asks the archive what a line asks, and writes the answer as a line. */
static void answered(char *line, char *out)
{
    double a[MOST], numbers[3], first, second = 0.0, value_tolerance, point_tolerance;
    uint64_t tallies[4], kind, limit;
    unsigned long method = strtoul(field(&line), NULL, 10);
    size_t count = strtoul(field(&line), NULL, 10), i;
    for (i = 0; i < count && i < MOST; i++)
        a[i] = next_double(&line);
    first = next_double(&line);
    if (method != ROOTS_NEWTON)
        second = next_double(&line);
    value_tolerance = next_double(&line);
    point_tolerance = next_double(&line);
    limit = strtoull(field(&line), NULL, 10);
    kind = roots_search(a, count, method, first, second, value_tolerance, point_tolerance, limit, numbers, tallies);
    out += sprintf(out, "%" PRIu64, kind);
    for (i = 0; i < (kind == ROOTS_BY_VALUE ? 2u : kind == ROOTS_BY_WIDTH ? 3u : 0u); i++)
        out += sprintf(out, " %016" PRIx64, to_bits(numbers[i]));
    for (i = 0; i < 4; i++)
        out += sprintf(out, " %" PRIu64, tallies[i]);
}

int main(int words, char **word)
{
    static char call[ROOM], wanted[ROOM], asked[ROOM], got[ROOM];
    FILE *calls = words == 3 ? fopen(word[1], "r") : NULL;
    FILE *answers = words == 3 ? fopen(word[2], "r") : NULL;
    unsigned long tried = 0, different = 0;
    if (calls == NULL || answers == NULL) {
        fprintf(stderr, "usage: replay CALLS ANSWERS\n");
        return 2;
    }
    while (fgets(call, ROOM, calls) != NULL && fgets(wanted, ROOM, answers) != NULL) {
        wanted[strcspn(wanted, "\n")] = '\0';
        if (strncmp(wanted, "error", 5) == 0)
            break; /* from here on the lines try the line tool's own reader */
        strcpy(asked, call);
        answered(call, got);
        tried++;
        if (strcmp(got, wanted) != 0) {
            different++;
            printf("DIFFERENT %s  wanted %s\n  got    %s\n", asked, wanted, got);
        }
    }
    printf("%lu calls, %lu different\n", tried, different);
    return tried == 0 || different != 0;
}
