/*
 * The gauge from C: places, gaps and ends, what is refused, and in which order; lists of every length around the right
 * one; floats at the edges, subnormal and infinite ones among them. Prints how many calls went as they should; fails
 * at the first that did not.
 */
#include <float.h>
#include <math.h>
#include <stdio.h>
#include <string.h>

#include "planbook.h"

enum { OPEN = PLANBOOK_OPEN, AT = PLANBOOK_AT, MOST = PLANBOOK_BANDS_MAX, ROOM = MOST + 2 };

static unsigned calls;

/* A table with room for more bands than are accepted, and the lengths that are lent. */
typedef struct {
    uint8_t kinds[2 * ROOM];
    double ends[2 * ROOM];
    uint32_t states[ROOM];
    size_t kinds_len, ends_len, states_len;
} table;

/* Asks, and says so if the answer is another one. Lists of length 0 are lent as null. Answers whether it was right. */
static int check(const char *what, const table *t, uint32_t states, double reading, double aim, planbook_place told) {
    table before;
    memcpy(&before, t, sizeof before);
    planbook_place got =
        planbook_gauge(t->kinds_len ? t->kinds : NULL, t->kinds_len, t->ends_len ? t->ends : NULL, t->ends_len,
                       t->states_len ? t->states : NULL, t->states_len, states, reading, aim);
    calls++;
    if (got.number != told.number || got.found != told.found || got.state != told.state ||
        memcmp(&before, t, sizeof before) != 0) {
        printf("gauge: %s: %u %u %u, not %u %u %u\n", what, (unsigned)got.number, (unsigned)got.found,
               (unsigned)got.state, (unsigned)told.number, (unsigned)told.found, (unsigned)told.state);
        return 0;
    }
    return 1;
}

static planbook_place at(uint32_t state) { return (planbook_place){0, 1, state}; }
static planbook_place refused(uint32_t number) { return (planbook_place){number, 0, 0}; }
static planbook_place gap(void) { return (planbook_place){0, 0, 0}; }

/* One band with these kinds and ends, in state 3. */
static table one(uint8_t lower_kind, double lower, uint8_t upper_kind, double upper) {
    table t = {{lower_kind, upper_kind}, {lower, upper}, {3}, 2, 2, 1};
    return t;
}

/* Below -1, from -1 to 1 and from 2 on: states 5, 6 and 7. */
static table three(void) {
    table t = {{OPEN, AT, AT, AT, AT, OPEN}, {0, -1, -1, 1, 2, 0}, {5, 6, 7}, 6, 6, 3};
    return t;
}

/* So many bands of a millimetre each from 0 on; states from 0 on. */
static table rising(size_t count) {
    table t;
    memset(&t, 0, sizeof t);
    for (size_t i = 0; i < ROOM; i++) {
        t.kinds[2 * i] = t.kinds[2 * i + 1] = AT;
        t.ends[2 * i] = (double)i;
        t.ends[2 * i + 1] = (double)i + 1;
        t.states[i] = (uint32_t)i;
    }
    t.kinds_len = t.ends_len = 2 * count;
    t.states_len = count;
    return t;
}

/* Where deviations lie. */
static int places(void) {
    table unit = one(AT, 0.0, AT, 1.0), all = one(OPEN, NAN, OPEN, INFINITY), to_one = one(OPEN, NAN, AT, 1.0);
    table bands = three(), tenths = one(AT, 0.2, AT, 0.3), four = one(AT, 4.0, OPEN, 0.0);
    return check("inside", &unit, 4, 0.5, 0.0, at(3)) && check("lower end", &unit, 4, 0.0, 0.0, at(3)) &&
           check("-0.0", &unit, 4, -0.0, 0.0, at(3)) && check("upper end", &unit, 4, 1.0, 0.0, gap()) &&
           check("under the upper end", &unit, 4, nextafter(1.0, 0.0), 0.0, at(3)) &&
           check("under the lower end", &unit, 4, -DBL_TRUE_MIN, 0.0, gap()) &&
           check("open beside nan", &to_one, 4, 0.5, 0.0, at(3)) && check("all open", &all, 4, -1e300, 0.0, at(3)) &&
           check("rounded once", &tenths, 4, 0.3, 0.1, gap()) && check("no sum", &four, 4, 4.1, 0.1, gap()) &&
           check("first", &bands, 8, -7, 0, at(5)) && check("touching", &bands, 8, -1, 0, at(6)) &&
           check("under where they touch", &bands, 8, nextafter(-1, -2), 0, at(5)) &&
           check("gap", &bands, 8, 1, 0, gap()) && check("in the gap", &bands, 8, 4, 2.5, gap()) &&
           check("last", &bands, 8, 2, 0, at(7)) && check("largest", &bands, 8, DBL_MAX, 0, at(7));
}

/* Ends and differences at the edges of a double. */
static int edges(void) {
    table least = one(AT, DBL_TRUE_MIN, AT, 2 * DBL_TRUE_MIN), largest = one(AT, DBL_MAX, OPEN, 0.0);
    table zero = one(AT, -0.0, OPEN, NAN), all = one(OPEN, 0, OPEN, 0), wide = one(AT, 9007199254740994.0, OPEN, 0);
    double half = ldexp(1, 970); /* half a step of the largest */
    return check("subnormal", &least, 4, DBL_MIN, nextafter(DBL_MIN, 0), at(3)) &&
           check("twice the least", &least, 4, 2 * DBL_TRUE_MIN, 0, gap()) &&
           check("0.0 from -0.0 on", &zero, 4, 0.0, 0.0, at(3)) &&
           check("-0.0 from -0.0 on", &zero, 4, -0.0, 0.0, at(3)) &&
           check("a tie to even, down", &wide, 4, 9007199254740992.0, -1, gap()) &&
           check("a tie to even, up", &wide, 4, 9007199254740992.0, -3, at(3)) &&
           check("over a tie", &wide, 4, 9007199254740992.0, -nextafter(1, 2), at(3)) &&
           check("the largest", &largest, 4, DBL_MAX, 0, at(3)) &&
           check("rounded to the largest", &largest, 4, DBL_MAX, -nextafter(half, 0), at(3)) &&
           check("rounded to infinity", &all, 4, DBL_MAX, -half, refused(12)) &&
           check("the largest less itself", &all, 4, DBL_MAX, DBL_MAX, at(3));
}

/* What is refused of a table of one or two bands, with a reading and without. */
static int tables(void) {
    const table bad[] = {
        one(AT, 0.0, AT, -0.0), /* empty: the zeros are equal */
        one(AT, 1.0, AT, 0.0),
        one(AT, NAN, AT, 1.0),
        one(AT, 0.0, AT, NAN),
        one(OPEN, 0.0, AT, NAN),
        one(AT, 0.0, AT, INFINITY),
        one(AT, -INFINITY, AT, 1.0),
        one(2, 0.0, AT, 1.0), /* kinds that there are not */
        one(AT, 0.0, 2, 1.0),
        one(255, 0.0, AT, 1.0),
        {{AT, AT, AT, AT}, {0, 1, 0.75, 2}, {0, 0}, 4, 4, 2}, /* overlapping */
        {{AT, AT, AT, AT}, {5, 6, 0, 1}, {0, 0}, 4, 4, 2},    /* falling */
        {{AT, OPEN, AT, AT}, {0, 1, 1, 2}, {0, 0}, 4, 4, 2},  /* open between them */
        {{AT, AT, OPEN, AT}, {0, 1, 1, 2}, {0, 0}, 4, 4, 2},
        {{AT, AT}, {0, 1}, {4}, 2, 2, 1}, /* a state that is S */
        {{AT, AT}, {0, 1}, {UINT32_MAX}, 2, 2, 1},
    };
    for (size_t i = 0; i < sizeof bad / sizeof *bad; i++) {
        if (!check("bad table", &bad[i], 4, 0.5, 0.0, refused(11)) ||
            !check("bad table, no reading", &bad[i], 4, NAN, 0.0, refused(11))) {
            return 0;
        }
    }
    table unit = one(AT, 0.0, AT, 1.0), last = unit;
    last.states[0] = UINT32_MAX - 1;
    return check("no states", &unit, 0, 0.5, 0.0, refused(11)) && check("last state", &unit, 4, 0.5, 0.0, at(3)) &&
           check("largest state", &last, UINT32_MAX, 0.5, 0.0, at(UINT32_MAX - 1));
}

/* Readings and aims that are not finite. */
static int readings(void) {
    const double bad[] = {NAN, -NAN, INFINITY, -INFINITY};
    table unit = one(AT, 0.0, AT, 1.0);
    for (size_t i = 0; i < sizeof bad / sizeof *bad; i++) {
        if (!check("reading", &unit, 4, bad[i], 0.0, refused(12)) ||
            !check("aim", &unit, 4, 0.0, bad[i], refused(12)) ||
            !check("both", &unit, 4, bad[i], bad[i], refused(12))) {
            return 0;
        }
    }
    return check("overflow", &unit, 4, DBL_MAX, -DBL_MAX, refused(12)) &&
           check("overflow below", &unit, 4, -DBL_MAX, DBL_MAX, refused(12));
}

/* One less than a length, the length or one more, for i from 0 to 2; at least 0. */
static size_t around(size_t length, size_t i) { return length + i == 0 ? 0 : length + i - 1; }

/* Up to 65 bands, with lists that fit and that are one less or more. */
static int lengths(void) {
    for (size_t count = 0; count <= MOST + 1; count++) {
        for (size_t i = 0; i < 27; i++) {
            table t = rising(count);
            t.kinds_len = around(t.kinds_len, i / 9);
            t.ends_len = around(t.ends_len, i / 3 % 3);
            t.states_len = around(t.states_len, i % 3);
            int fits = i == 13 && count >= 1 && count <= MOST;
            planbook_place told = fits ? at((uint32_t)count - 1) : refused(11);
            if (!check("lengths", &t, ROOM, (double)count - 0.5, 0, told)) {
                return 0;
            }
        }
    }
    return 1;
}

int main(void) {
    if (!places() || !edges() || !tables() || !readings() || !lengths()) {
        return 1;
    }
    printf("gauge: %u calls\n", calls);
    return 0;
}
