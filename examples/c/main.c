/*
 * The worked cases W1 to W13 of document 01, and a search on a tone strip, where values and points have
 * each their own scale: prints each call with its answer, and holds it against the table. The exit status
 * is 1 where an answer differs.
 */
#include <math.h>
#include <stdio.h>
#include <string.h>

#include "roots.h"

#define COUNT(a) (sizeof(a) / sizeof *(a))

/* A call, and all that it must give back. */
struct worked {
    const char *name;
    const double *coefficients;
    size_t count;
    uint64_t method;
    double first, second, value_tolerance, point_tolerance;
    uint64_t limit;
    uint64_t kind;
    double numbers[3];
    uint64_t tallies[4];
};

#define BOTH(eps) eps, eps /* one number for values and points, as the Rust has it */
#define EPS BOTH(1.0 / 1024)
#define BY_VALUE(root, value) ROOTS_BY_VALUE, {root, value, 0}
#define BY_WIDTH(root, p, q) ROOTS_BY_WIDTH, {root, p, q}
#define REFUSED(name) ROOTS_REFUSED + ROOTS_##name, {0, 0, 0}
#define UNKNOWN ROOTS_UNKNOWN_METHOD, {0, 0, 0}

static const double less2[] = {0, -2}, less1[] = {0, -1}, line[] = {-1}, wide[] = {100, -150};
static const double plus1[] = {0, 1}, strip[] = {100, 0, -3e6}, noughts[17] = {0};

static const struct worked table[] = {
    {"W1", less2, 2, ROOTS_BRENT, 0, 2, EPS, 1, REFUSED(NO_CONVERGENCY), {1, 3, 0, 0}},
    {"W2", less2, 2, ROOTS_ILLINOIS, 0, 2, EPS, 1, REFUSED(NO_CONVERGENCY), {1, 3, 0, 0}},
    {"W3", less2, 2, ROOTS_SECANT, 0, 2, EPS, 1, REFUSED(NO_CONVERGENCY), {1, 3, 0, 0}},
    {"W4", less2, 2, ROOTS_NEWTON, 0, 0, EPS, 1, REFUSED(NO_CONVERGENCY), {2, 2, 2, 0}},
    {"W5", less2, 2, ROOTS_POLYNOM, 0, 2, EPS, 1, REFUSED(NO_CONVERGENCY), {1, 4, 1, 0}},
    {"W6", less1, 2, ROOTS_ILLINOIS, 0, 1, EPS, 1, BY_VALUE(1, 0), {0, 2, 0, 0}},
    {"W7", line, 1, ROOTS_BRENT, 0, 2, EPS, 1, REFUSED(NO_CONVERGENCY), {1, 3, 0, 0}},
    {"W8", line, 1, ROOTS_BRENT, 0, 2, EPS, 2, BY_VALUE(1, 0), {1, 3, 0, 0}},
    {"W9", wide, 2, ROOTS_BRENT, 0, 2, BOTH(4), 10, BY_WIDTH(0, 0, 2), {0, 2, 0, 0}},
    {"W10", wide, 2, ROOTS_ILLINOIS, 0, 2, BOTH(4), 10, BY_WIDTH(300.0 / 204.0, 0, 2), {0, 2, 0, 0}},
    {"W11", plus1, 2, ROOTS_NEWTON, 0, 0, EPS, 5, REFUSED(ZERO_DERIVATIVE), {2, 3, 3, 0}},
    {"W12", noughts, 2, ROOTS_ILLINOIS, 1.0 / 64, 1, EPS, 9, BY_VALUE(1.0 / 64, 1.0 / 4096), {0, 1, 0, 0}},
    {"W13", noughts, 2, ROOTS_BRENT, 1.0 / 64, 1, EPS, 9, REFUSED(NO_BRACKETING), {0, 2, 0, 0}},
};

/*
 * A tone strip of 200 mm has the density (x^3 + 100 x^2) / 6000000 at x mm. Where is it 0.5? A value is a
 * density times 6000000, so 0.001 of density is 6000; a width is in mm. One number cannot be both: 6000
 * for the points, too, takes 100 and 120 mm for one place.
 */
static const struct worked apart[] = {
    {"density to 0.001", strip, 3, ROOTS_NEWTON, 100, 0, 6000, 0.01, 30, BY_VALUE(117.5, 2859.375), {2, 3, 3, 0}},
    {"place to 0.01 mm", strip, 3, ROOTS_ILLINOIS, 0, 200, ROOTS_LEAST_TOLERANCE, 0.01, 30,
     BY_WIDTH(117.4559410284095, 117.45557860998746, 117.45629264101028), {7, 9, 0, 0}},
    {"6000 for both", strip, 3, ROOTS_NEWTON, 100, 0, BOTH(6000), 30, BY_WIDTH(120, 100, 120), {0, 1, 1, 0}},
};

/* What the header says besides. */
static const struct worked others[] = {
    {"null pointer, count 0", NULL, 0, ROOTS_BRENT, 0, 2, EPS, 1, REFUSED(BAD_COUNT), {0, 0, 0, 0}},
    {"17 coefficients", noughts, 17, ROOTS_BRENT, 0, 2, EPS, 1, REFUSED(BAD_COUNT), {0, 0, 0, 0}},
    {"method 0", noughts, 1, 0, 0, 2, EPS, 1, UNKNOWN, {0, 0, 0, 0}},
    {"method 6, null pointer", NULL, 0, 6, NAN, NAN, BOTH(NAN), 999, UNKNOWN, {0, 0, 0, 0}},
    {"Brent, second NaN", noughts, 1, ROOTS_BRENT, 0, NAN, EPS, 1, REFUSED(BAD_START), {0, 0, 0, 0}},
    {"Newton, second NaN", noughts, 1, ROOTS_NEWTON, 0, NAN, EPS, 1, BY_VALUE(0, 0), {0, 1, 1, 0}},
    {"value tolerance 0", noughts, 1, ROOTS_BRENT, 0, 2, 0, 1, 1, REFUSED(BAD_TOLERANCE), {0, 0, 0, 0}},
    {"point tolerance NaN", noughts, 1, ROOTS_BRENT, 0, 2, 1, NAN, 1, REFUSED(BAD_TOLERANCE), {0, 0, 0, 0}},
};

static const char *const methods[] = {"", "Brent", "Illinois", "secant", "Newton", "polynomial"};

static const char *const refusals[] = {
    "",              "bad count",       "bad coefficient", "bad start",  "bad tolerance", "bad limit",
    "no bracketing", "zero derivative", "no convergency",  "not finite",
};

/* What a call gave back. */
struct got {
    uint64_t kind;
    double numbers[3];
    uint64_t tallies[4];
};

/* Makes the call, and tells whether its answer is the one given, bit for bit. */
static int agrees(const struct worked *w, struct got *g)
{
    memset(g, 0x7f, sizeof *g);
    g->kind = roots_search(w->coefficients, w->count, w->method, w->first, w->second, w->value_tolerance,
                           w->point_tolerance, w->limit, g->numbers, g->tallies);
    return g->kind == w->kind && memcmp(g->numbers, w->numbers, sizeof g->numbers) == 0
        && memcmp(g->tallies, w->tallies, sizeof g->tallies) == 0;
}

/* The answer in words. */
static const char *told(const struct got *g)
{
    static char text[128];
    const double *n = g->numbers;

    if (g->kind == ROOTS_BY_VALUE)
        snprintf(text, sizeof text, "by value: root %.17g, value %.17g", n[0], n[1]);
    else if (g->kind == ROOTS_BY_WIDTH)
        snprintf(text, sizeof text, "by width: root %.17g, pair %.17g, %.17g", n[0], n[1], n[2]);
    else if (g->kind == ROOTS_UNKNOWN_METHOD)
        snprintf(text, sizeof text, "unknown method");
    else if (g->kind > ROOTS_REFUSED && g->kind <= ROOTS_REFUSED + ROOTS_NOT_FINITE)
        snprintf(text, sizeof text, "refused %d: %s", (int)(g->kind - ROOTS_REFUSED),
                 refusals[g->kind - ROOTS_REFUSED]);
    else
        snprintf(text, sizeof text, "no kind that is known");
    return text;
}

/* One or two numbers. */
static const char *both(char *text, size_t size, double p, double q, int two)
{
    if (two)
        snprintf(text, size, "%g, %g", p, q);
    else
        snprintf(text, size, "%g", p);
    return text;
}

/* Makes the calls of document 01's table and prints them as one. Returns how many answers differ. */
static int table_differs(void)
{
    struct got g;
    char a[64], s[64];
    size_t i;
    int wrong = 0;

    printf("%-4s %-12s %-10s %-11s %-12s %5s  %-45s %5s %6s %11s %4s\n", "", "coefficients", "method", "starts",
           "tolerances", "limit", "answer", "steps", "values", "derivatives", "mark");
    for (i = 0; i < COUNT(table); i++) {
        const struct worked *w = &table[i];
        const double *c = w->coefficients;
        int same = agrees(w, &g);

        printf("%-4s %-12s %-10s %-11s %-12.10g %5d  %-45s %5d %6d %11d %4d%s\n", w->name,
               both(a, sizeof a, c[0], w->count == 2 ? c[1] : 0, w->count == 2), methods[w->method],
               both(s, sizeof s, w->first, w->second, w->method != ROOTS_NEWTON), w->value_tolerance, (int)w->limit,
               told(&g), (int)g.tallies[ROOTS_STEPS], (int)g.tallies[ROOTS_VALUES],
               (int)g.tallies[ROOTS_DERIVATIVES], (int)g.tallies[ROOTS_MARK], same ? "" : "  DIFFERENT");
        wrong += !same;
    }
    return wrong;
}

/* Makes other calls, and prints each by its name. Returns how many answers differ. */
static int named_differ(const struct worked *calls, size_t count)
{
    struct got g;
    size_t i;
    int wrong = 0;

    for (i = 0; i < count; i++) {
        int same = agrees(&calls[i], &g);

        printf("%-22s  %s%s\n", calls[i].name, told(&g), same ? "" : "  DIFFERENT");
        wrong += !same;
    }
    return wrong;
}

int main(void)
{
    int wrong = table_differs() + named_differ(apart, COUNT(apart)) + named_differ(others, COUNT(others));

    if (roots_version() != ROOTS_VERSION) {
        printf("the archive is not of the header's version, %d\n", ROOTS_VERSION);
        wrong++;
    }
    printf("%d calls, %d different\n", (int)(COUNT(table) + COUNT(apart) + COUNT(others)), wrong);
    return wrong != 0;
}
