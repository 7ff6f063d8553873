/*
 * Root searches on x^n + a[0] x^(n-1) + ... + a[n-1], for C and C++.
 *
 * What a call gives back is proved to equal the definitions flat_kind, flat_numbers and flat_tallies of
 * crates/roots_c/specs/Flat.antt for every input. The compiler's back end is not proved.
 */
#ifndef ROOTS_H
#define ROOTS_H

#include <stddef.h>
#include <stdint.h>

#ifdef __cplusplus
extern "C" {
#endif

/*
 * The version of this interface: roots_version() of a matching archive returns it. In version 1 Brent
 * counted 2 values a step. Version 2 had one eps in the place of the two tolerances, in all three calls,
 * and only records of kind 1; a linker does not tell them apart.
 */
#define ROOTS_VERSION 3

/* The limits of the stop rule: 2^-300, 400 and 16. */
#define ROOTS_LEAST_TOLERANCE 4.909093465297727e-91
#define ROOTS_GREATEST_LIMIT 400
#define ROOTS_MOST_COEFFICIENTS 16

/* The limit that a plain eps has in the Rust crate roots 0.0.8; such an eps is both tolerances here. */
#define ROOTS_PLAIN_LIMIT 30

/* Methods. Any other number is answered with ROOTS_UNKNOWN_METHOD. */
enum roots_method {
    ROOTS_BRENT = 1,    /* first and second are the ends of a bracket, in either order */
    ROOTS_ILLINOIS = 2, /* regula falsi; first and second are the ends, in either order */
    ROOTS_SECANT = 3,   /* first and second are two points; they need not enclose a root */
    ROOTS_NEWTON = 4,   /* first is the start; second is not looked at */
    ROOTS_POLYNOM = 5   /* polynomial search; first and second are the ends, in either order */
};

/* Kinds, which the call returns. A refusal's kind is ROOTS_REFUSED plus its number. */
#define ROOTS_REFUSED 10 /* numbers: three times +0.0 */

enum roots_kind {
    ROOTS_BY_VALUE = 0,       /* numbers: the root, its computed value, +0.0; |value| < value_tolerance */
    ROOTS_BY_WIDTH = 1,       /* numbers: the root and two points p, q; |p - q| < point_tolerance as computed */
    ROOTS_UNKNOWN_METHOD = 10 /* numbers and tallies all zero; only the method was looked at */
};

/*
 * Refusals. 1 to 5 are given in this order, whatever a search would find, and leave all tallies zero.
 * 6 to 9 come in order of the run, with the tallies up to there.
 */
enum roots_refusal {
    ROOTS_BAD_COUNT = 1,       /* there are no coefficients, or more than 16 */
    ROOTS_BAD_COEFFICIENT = 2, /* a coefficient is infinite or no number */
    ROOTS_BAD_START = 3,       /* a start is infinite or no number */
    ROOTS_BAD_TOLERANCE = 4,   /* a tolerance is infinite, no number, or below 2^-300: zero and below too */
    ROOTS_BAD_LIMIT = 5,       /* limit is above 400 */
    ROOTS_NO_BRACKETING = 6,   /* methods with ends: the values there are both above zero or both below */
    ROOTS_ZERO_DERIVATIVE = 7, /* secant: the values differ by less than value_tolerance; Newton: so small a slope */
    ROOTS_NO_CONVERGENCY = 8,  /* the limit was reached, and no stop test had held */
    ROOTS_NOT_FINITE = 9       /* a value, a derivative or a point to be used is infinite or no number */
};

/* What stands where in tallies. Steps and evaluations are counted apart. */
enum roots_tally {
    ROOTS_STEPS = 0,       /* completed steps */
    ROOTS_VALUES = 1,      /* polynomial values worked out: 402 at most, 802 with ROOTS_POLYNOM */
    ROOTS_DERIVATIVES = 2, /* derivatives worked out: 400 at most */
    ROOTS_MARK = 3         /* 0, or the first rule by which the run left the Rust's way: 1 signs */
                           /* decided, and not a product; 2 a point was pulled to the nearer end */
};

/*
 * One search.
 *
 *   coefficients     count doubles, a[0] first. They are only read. With count 0 the pointer is not
 *                    looked at and may be null: the call is refused with ROOTS_BAD_COUNT.
 *   method           one of enum roots_method
 *   first, second    the starts, as the method has them
 *   value_tolerance  which values count as zero: one below it in size stops the search, and with
 *                    ROOTS_SECANT and ROOTS_NEWTON so small a difference of values or slope is flat
 *   point_tolerance  which points count as one: two that are closer stop the search, and ROOTS_BRENT
 *                    bisects where its last step, or the one before, was as short
 *   limit            the most steps; 0 does what 1 does, and Newton may then take 2
 *   numbers          three doubles, all written by every call
 *   tallies          four words, all written by every call
 *
 * Returns 0 by value, 1 by width, or 10 plus the number of a refusal. Any values may be passed, NaNs
 * and infinities too: each gets its answer, and the call always returns.
 *
 * The caller sees to it that the pointers are to memory of these sizes, aligned for their types, that
 * numbers and tallies are not null, and that none of the three buffers overlaps another.
 *
 * Nothing is kept after the call. There are no globals, no heap and no input or output, so any number
 * of threads may call at once. It relies on the processor's default floating-point mode: rounding to
 * nearest, subnormal numbers kept. (Linking with -ffast-math can turn the latter off.)
 */
uint64_t roots_search(const double *coefficients, size_t count, uint64_t method, double first,
                      double second, double value_tolerance, double point_tolerance,
                      uint64_t limit, double numbers[3], uint64_t tallies[4]);

/* The version of the interface that the archive has: ROOTS_VERSION. */
uint64_t roots_version(void);

/*
 * Records: a search on file, in the bytes that docs/RECORDS.md lays out. What is written and read is
 * proved to equal the definitions of crates/roots_c/specs/FlatRecords.antt for every input.
 */

/* No record is longer, so that many bytes always suffice. */
#define ROOTS_LONGEST_RECORD 268

/*
 * The kinds of records are 1, which has one tolerance for values and points, and 2, which has both.
 * This is the one to write; a record that was read is written back in its own.
 */
#define ROOTS_NEWEST_RECORD 2

/* Refusals of a record. 11 is given before 10. */
enum roots_record_refusal {
    ROOTS_NO_ROOM = 10,  /* writing: the buffer is shorter than the record */
    ROOTS_NO_RECORD = 11 /* the bytes, or the call and answer to be written, are no record */
};

/*
 * Writes the record of a call and its answer to the start of a buffer.
 *
 *   record_kind            ROOTS_NEWEST_RECORD, or the kind that was read: then the bytes are the same
 *   coefficients .. limit  the call, as roots_search takes it; with ROOTS_NEWTON second is not looked at
 *   kind                   what roots_search returned
 *   numbers, tallies       what it left there; of numbers only those that the kind has are looked at
 *   bytes                  room bytes. The record goes to their start, and what is behind it stays.
 *                          With room 0 the pointer is not looked at and may be null.
 *   length                 one word, always written: the record's bytes, or 0 where it is refused
 *
 * Returns 0, or one of enum roots_record_refusal, which leaves the bytes as they were. A record kind
 * other than 1 and 2, kind 1 with two tolerances that differ in a bit, a call that 1 to 5 refuse, an
 * unknown method, a number of the answer that is not finite, a kind other than 0, 1 and 16 to 19 and a
 * mark above 2 have no record. Nothing else is asked: any steps, values and derivatives may be written.
 */
uint64_t roots_record_write(uint64_t record_kind, const double *coefficients, size_t count,
                            uint64_t method, double first, double second, double value_tolerance,
                            double point_tolerance, uint64_t limit, uint64_t kind,
                            const double numbers[3], const uint64_t tallies[4], uint8_t *bytes,
                            size_t room, uint64_t *length);

/* What stands where in the points and the words of a record that was read. */
enum roots_record_point {
    ROOTS_FIRST = 0,  /* the first start */
    ROOTS_SECOND = 1, /* the second start; +0.0 with ROOTS_NEWTON */
    ROOTS_VALUE_TOLERANCE = 2,
    ROOTS_POINT_TOLERANCE = 3 /* the same bits as the value tolerance where the record is of kind 1 */
};

enum roots_record_word {
    ROOTS_LENGTH = 0, /* the record's bytes: the next one begins behind them */
    ROOTS_METHOD = 1,
    ROOTS_COUNT = 2, /* of the coefficients */
    ROOTS_LIMIT = 3,
    ROOTS_KIND = 4,       /* of the answer */
    ROOTS_RECORD_KIND = 5 /* of the record: 1 or 2 */
};

/*
 * Reads the record at the start of a buffer; what is behind it is not looked at.
 *
 *   bytes         room bytes, only read. With room 0 the pointer is not looked at and may be null.
 *   coefficients  16 doubles: the record's, a[0] first, and +0.0 behind them
 *   points        four doubles, by enum roots_record_point
 *   numbers       three doubles and
 *   tallies       four words, as roots_search leaves them
 *   words         six words, by enum roots_record_word
 *
 * Returns 0, or ROOTS_NO_RECORD: to be tested first, since all five buffers are written by every call,
 * with all zero where it is refused, and kind 0 is by value. None of the buffers of these two calls may overlap another.
 */
uint64_t roots_record_read(const uint8_t *bytes, size_t room, double coefficients[16],
                           double points[4], double numbers[3], uint64_t tallies[4],
                           uint64_t words[6]);

#ifdef __cplusplus
}
#endif

#endif
