/*
 * A search on file: makes the search of W6 of document 01, with a point tolerance of its own, writes its
 * record, prints the bytes, reads them back and prints what was read; then does so with W6's record as
 * older programs wrote it. The exit status is 1 where the bytes or what was read differ from those that
 * were worked out by hand.
 */
#include <inttypes.h>
#include <math.h>
#include <stdio.h>
#include <string.h>

#include "roots.h"

/* A call and its answer, and the kind of their record. */
struct searched {
    uint64_t record_kind;
    double coefficients[ROOTS_MOST_COEFFICIENTS];
    uint64_t count, method;
    double first, second, value_tolerance, point_tolerance;
    uint64_t limit;
    uint64_t kind;
    double numbers[3];
    uint64_t tallies[4];
};

/*
 * W6: Illinois on x^2 - 1 between 0 and 1, value tolerance 1/1024, point tolerance 1/64, limit 1. It finds
 * the root 1, whose value is 0.
 */
static const struct searched w6 = {
    ROOTS_NEWEST_RECORD, {0, -1}, 2, ROOTS_ILLINOIS, 0, 1, 1.0 / 1024, 1.0 / 64, 1,
    ROOTS_BY_VALUE, {1, 0, 0}, {0, 2, 0, 0},
};

/*
 * Its record. Seven bits a byte, the lowest first; 80 is added where another byte of the number follows.
 * A double is its 64 bits: byte 7 holds bits 49 to 55, byte 8 bits 56 to 62, byte 9 bit 63.
 */
static const uint8_t by_hand[] = {
    0x00, 0x02,                                                 /* kind 2 of records */
    0x02,                                                       /* method 2, Illinois */
    0x02,                                                       /* 2 coefficients */
    0x00,                                                       /* 0: no bit is set */
    0x80, 0x80, 0x80, 0x80, 0x80, 0x80, 0x80, 0xf8, 0xbf, 0x01, /* -1: bff0000000000000, bits 52 to 61 and 63 */
    0x00,                                                       /* first 0 */
    0x80, 0x80, 0x80, 0x80, 0x80, 0x80, 0x80, 0xf8, 0x3f,       /* second 1: 3ff0000000000000, bits 52 to 61 */
    0x80, 0x80, 0x80, 0x80, 0x80, 0x80, 0x80, 0xa8, 0x3f,       /* 1/1024: 3f50000000000000, bits 52, 54, 56 to 61 */
    0x80, 0x80, 0x80, 0x80, 0x80, 0x80, 0x80, 0xc8, 0x3f,       /* 1/64: 3f90000000000000, bits 52, 55, 56 to 61 */
    0x01,                                                       /* limit 1 */
    0x00,                                                       /* kind 0 of answers, by value */
    0x80, 0x80, 0x80, 0x80, 0x80, 0x80, 0x80, 0xf8, 0x3f,       /* the root 1 */
    0x00,                                                       /* its value 0 */
    0x00, 0x02, 0x00, 0x00,                                     /* 0 steps, 2 values, 0 derivatives, mark 0 */
};

/* W6 with 1/1024 for values and points, as a record of kind 1: it begins with its method. */
static const uint8_t old_by_hand[] = {
    0x02, 0x02,                                                       /* method 2, 2 coefficients */
    0x00, 0x80, 0x80, 0x80, 0x80, 0x80, 0x80, 0x80, 0xf8, 0xbf, 0x01, /* 0 and -1 */
    0x00, 0x80, 0x80, 0x80, 0x80, 0x80, 0x80, 0x80, 0xf8, 0x3f,       /* first 0, second 1 */
    0x80, 0x80, 0x80, 0x80, 0x80, 0x80, 0x80, 0xa8, 0x3f,             /* 1/1024, both tolerances */
    0x01, 0x00,                                                       /* limit 1; by value */
    0x80, 0x80, 0x80, 0x80, 0x80, 0x80, 0x80, 0xf8, 0x3f, 0x00,       /* the root 1, its value 0 */
    0x00, 0x02, 0x00, 0x00,                                           /* 2 values */
};

/* Makes the call, and puts its answer in. */
static void search(struct searched *s)
{
    s->kind = roots_search(s->coefficients, s->count, s->method, s->first, s->second, s->value_tolerance,
                           s->point_tolerance, s->limit, s->numbers, s->tallies);
}

/* Writes the record. Returns its length, or 0 where it is refused. */
static size_t written(const struct searched *s, uint8_t *bytes, size_t room)
{
    uint64_t length;

    roots_record_write(s->record_kind, s->coefficients, s->count, s->method, s->first, s->second,
                       s->value_tolerance, s->point_tolerance, s->limit, s->kind, s->numbers, s->tallies, bytes,
                       room, &length);
    return length;
}

/* Reads the record at the start of the bytes. Returns its length, or 0 where it is refused. */
static size_t was_read(const uint8_t *bytes, size_t room, struct searched *s)
{
    double points[4];
    uint64_t words[6];

    roots_record_read(bytes, room, s->coefficients, points, s->numbers, s->tallies, words);
    s->first = points[ROOTS_FIRST];
    s->second = points[ROOTS_SECOND];
    s->value_tolerance = points[ROOTS_VALUE_TOLERANCE];
    s->point_tolerance = points[ROOTS_POINT_TOLERANCE];
    s->record_kind = words[ROOTS_RECORD_KIND];
    s->method = words[ROOTS_METHOD];
    s->count = words[ROOTS_COUNT];
    s->limit = words[ROOTS_LIMIT];
    s->kind = words[ROOTS_KIND];
    return words[ROOTS_LENGTH];
}

static void print_bytes(const uint8_t *bytes, size_t length)
{
    size_t i;

    for (i = 0; i < length; i++)
        printf("%02x%c", bytes[i], i % 16 == 15 || i + 1 == length ? '\n' : ' ');
}

static void print_read(const struct searched *s)
{
    uint64_t i;

    printf("record of kind %" PRIu64 ": method %" PRIu64 ", coefficients", s->record_kind, s->method);
    for (i = 0; i < s->count; i++)
        printf(" %g", s->coefficients[i]);
    printf(", starts %g %g, tolerances %.10g %.10g, limit %" PRIu64 "\n", s->first, s->second,
           s->value_tolerance, s->point_tolerance, s->limit);
    printf("kind %" PRIu64 ", numbers %.17g %.17g %.17g\n", s->kind, s->numbers[0], s->numbers[1], s->numbers[2]);
    printf("steps %" PRIu64 ", values %" PRIu64 ", derivatives %" PRIu64 ", mark %" PRIu64 "\n",
           s->tallies[ROOTS_STEPS], s->tallies[ROOTS_VALUES], s->tallies[ROOTS_DERIVATIVES],
           s->tallies[ROOTS_MARK]);
}

/* Says what differs, and counts it. */
static int differs(int same, const char *what)
{
    if (!same)
        printf("DIFFERENT: %s\n", what);
    return !same;
}

/* What the header says of refusals: nothing is read of a cut record, and nothing written where room is short. */
static int refusals_differ(const struct searched *s, const uint8_t *record, size_t length)
{
    static const struct searched zero;
    struct searched got;
    uint8_t bytes[ROOTS_LONGEST_RECORD], before[ROOTS_LONGEST_RECORD];
    size_t end;
    int wrong = 0;

    memset(before, 0xee, sizeof before);
    memcpy(bytes, before, sizeof bytes);
    for (end = 0; end < length; end++) {
        wrong += differs(was_read(record, end, &got) == 0 && memcmp(&got, &zero, sizeof got) == 0, "a cut record");
        wrong += differs(written(s, bytes, end) == 0 && memcmp(bytes, before, sizeof bytes) == 0, "too little room");
    }
    return wrong;
}

/* Newton has one start: the second is not looked at, takes no bytes, and is read as 0. The room is exact. */
static int newton_differs(void)
{
    struct searched s = w6, got;
    uint8_t bytes[sizeof by_hand - 9];
    size_t length;

    s.method = ROOTS_NEWTON;
    s.second = NAN;
    length = written(&s, bytes, sizeof bytes);
    s.second = 0;
    return differs(length == sizeof bytes && was_read(bytes, length, &got) == length
                       && memcmp(&got, &s, sizeof s) == 0,
                   "Newton's start");
}

/* An old record reads as both tolerances equal and is written back in its own kind, and only so. */
static int old_differs(void)
{
    struct searched s = w6, got;
    uint8_t bytes[sizeof old_by_hand];
    size_t length;
    int wrong = 0;

    s.record_kind = 1;
    wrong += differs(written(&s, bytes, sizeof bytes) == 0, "two tolerances in kind 1");
    s.point_tolerance = s.value_tolerance;
    length = was_read(old_by_hand, sizeof old_by_hand, &got);
    print_read(&got);
    wrong += differs(length == sizeof bytes && memcmp(&got, &s, sizeof got) == 0, "an old record read");
    length = written(&got, bytes, sizeof bytes);
    wrong += differs(length == sizeof bytes && memcmp(bytes, old_by_hand, length) == 0, "an old record's bytes");
    return wrong;
}

int main(void)
{
    struct searched s = w6, got;
    uint8_t bytes[ROOTS_LONGEST_RECORD] = {0};
    size_t length;
    int wrong = 0;

    memset(s.numbers, 0x7f, sizeof s.numbers);
    memset(s.tallies, 0x7f, sizeof s.tallies);
    memset(&got, 0x7f, sizeof got);
    search(&s);
    wrong += differs(memcmp(&s, &w6, sizeof s) == 0, "the answer");
    length = written(&s, bytes, sizeof bytes);
    print_bytes(bytes, length);
    wrong += differs(length == sizeof by_hand && memcmp(bytes, by_hand, sizeof by_hand) == 0, "the bytes");
    wrong += differs(was_read(bytes, sizeof bytes, &got) == length, "the length that was read");
    print_read(&got);
    wrong += differs(memcmp(&got, &w6, sizeof got) == 0, "what was read");
    wrong += refusals_differ(&w6, by_hand, sizeof by_hand);
    wrong += newton_differs();
    wrong += old_differs();
    printf("records of %d and %d bytes, %d different\n", (int)length, (int)sizeof old_by_hand, wrong);
    return wrong != 0;
}
