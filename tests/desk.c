/*
 * The desk from C: strip plant P followed round by M1's book, told wrong, and started where all is lost; a book nobody
 * made in which a report leads to a lost state; numbers out of range; plants and books of every shorter length, and
 * some with a fault. Prints how many calls went as they should; fails at the first that did not.
 */
#include <stdio.h>
#include <string.h>

#include "planbook.h"

enum { PLANT = 72, BOOK = 48 };

static const uint8_t p[PLANT] = {
    4, 0, 3, 0, 2, 0, 8, 0, 16, 0, 24, 0, 72, 0, 0, 0, /* header: S, U, N, E, labels at, arrows at, length, 0 */
    3, 0, 1, 0, 5, 0, 0, 0,                            /* labels */
    0, 0, 0, 0, 1, 0, 0, 0, 1, 0, 1, 0, 0, 0, 1, 0, 2, 0, /* arrows: from, move, to */
    1, 0, 0, 0, 2, 0, 1, 0, 1, 0, 3, 0, 1, 0, 2, 0, 0, 0, /**/ 2, 0, 0, 0, 0, 0, 2, 0, 2, 0, 1, 0,
};

static uint8_t m1[BOOK];
static unsigned calls;

/* What is lent. */
typedef struct {
    const uint8_t *plant, *book;
    size_t plant_len, book_len;
} lent;

static planbook_desk at(uint32_t state, uint32_t move, uint32_t wait, uint32_t seek) {
    return (planbook_desk){0, 0, move, wait, seek, state, seek};
}
static planbook_desk lost(uint32_t state, uint32_t goal) { return (planbook_desk){0, 1, 0, 0, 0, state, goal}; }
static planbook_desk left(uint32_t number, uint32_t state, uint32_t goal) {
    return (planbook_desk){number, 0, 0, 0, 0, state, goal};
}

/* Says so if an answer is another one than was told. Answers whether it was right. */
static int same(const char *what, planbook_desk got, planbook_desk told) {
    calls++;
    if (memcmp(&got, &told, sizeof got) != 0) {
        printf("desk: %s: %u %u %u %u %u %u %u, not %u %u %u %u %u %u %u\n", what, (unsigned)got.number,
               (unsigned)got.lost, (unsigned)got.move, (unsigned)got.wait, (unsigned)got.seek, (unsigned)got.state,
               (unsigned)got.goal, (unsigned)told.number, (unsigned)told.lost, (unsigned)told.move, (unsigned)told.wait,
               (unsigned)told.seek, (unsigned)told.state, (unsigned)told.goal);
        return 0;
    }
    return 1;
}

static int start(const char *what, const lent *l, uint32_t state, planbook_desk told) {
    return same(what, planbook_start(l->plant, l->plant_len, l->book, l->book_len, state), told);
}

static int report(const char *what, const lent *l, uint32_t state, uint32_t goal, uint32_t end, planbook_desk told) {
    return same(what, planbook_report(l->plant, l->plant_len, l->book, l->book_len, state, goal, end), told);
}

/* A start and reports that are refused with a number, whatever is held. */
static int refused(const char *what, const lent *l, uint32_t number) {
    return start(what, l, 0, left(number, 0, 0)) && start(what, l, UINT32_MAX, left(number, 0, 0)) &&
           report(what, l, 0, 1, 1, left(number, 0, 1)) && report(what, l, 3, 0, 2, left(number, 3, 0)) &&
           report(what, l, UINT32_MAX, UINT32_MAX, UINT32_MAX, left(number, UINT32_MAX, UINT32_MAX));
}

/* P and M1's book. */
static int strip(void) {
    lent l = {p, m1, PLANT, BOOK};
    int right = start("start", &l, 0, at(0, 0, 2, 1)) && report("wrong move", &l, 0, 1, 2, left(13, 0, 1)) &&
                report("no arrow", &l, 0, 1, 0, left(13, 0, 1)) && report("no state", &l, 0, 1, 4, left(8, 0, 1)) &&
                report("first", &l, 0, 1, 1, at(1, 0, 1, 1)) && report("second", &l, 1, 1, 2, at(2, 0, 1, 0)) &&
                report("third", &l, 2, 0, 0, at(0, 0, 2, 1)) && start("lost", &l, 3, lost(3, 0));
    for (uint32_t end = 0; right && end < 4; end++) {
        right = report("from a lost state", &l, 3, 1, end, left(13, 3, 1));
    }
    return right;
}

/* M9's book: M1's with row 1 lost. */
static int invented(void) {
    uint8_t m9[BOOK];
    memcpy(m9, m1, BOOK);
    m9[6] = 2;
    memset(m9 + 24, 0xff, 8);
    lent l = {p, m9, PLANT, BOOK};
    return start("M9", &l, 0, at(0, 0, 2, 1)) && report("to a lost state", &l, 0, 1, 1, lost(1, 1)) &&
           report("the goal sought is held", &l, 0, 0, 1, lost(1, 1)) &&
           report("not from there", &l, 1, 1, 2, left(13, 1, 1));
}

/* Numbers out of range, before 13. */
static int numbers(void) {
    const uint32_t far[] = {4, 5, 255, 256, 65535, 65536, 65537, 1u << 31, UINT32_MAX - 1, UINT32_MAX};
    lent l = {p, m1, PLANT, BOOK};
    for (size_t i = 0; i < sizeof far / sizeof *far; i++) {
        uint32_t n = far[i];
        if (!start("far", &l, n, left(8, 0, 0)) || !report("far held", &l, n, 0, 1, left(8, n, 0)) ||
            !report("far goal", &l, 0, n, 1, left(8, 0, n)) || !report("far report", &l, 0, 1, n, left(8, 0, 1)) ||
            !report("far report from a lost state", &l, 3, 0, n, left(8, 3, 0)) ||
            !report("all far", &l, n, n, n, left(8, n, n))) {
            return 0;
        }
    }
    return report("goal N", &l, 0, 2, 1, left(8, 0, 2));
}

/* Plants and books that are cut short, null ones among them, or have a fault. */
static int bytes(void) {
    for (size_t length = 0; length < PLANT; length++) {
        lent l = {length ? p : NULL, m1, length, BOOK};
        if (!refused("short plant", &l, 1)) {
            return 0;
        }
    }
    for (size_t length = 0; length < BOOK; length++) {
        lent l = {p, length ? m1 : NULL, PLANT, length};
        if (!refused("short book", &l, 4)) {
            return 0;
        }
    }
    static const struct {
        const char *what;
        size_t in_plant, at;
        uint8_t value;
        uint32_t number;
    } faults[] = {
        {"last number 2", 1, 14, 2, 1},    {"no goals", 1, 4, 0, 1},
        {"bit 3 of a label", 1, 16, 8, 2}, {"arrow to state 4", 1, 70, 4, 3},
        {"arrows the same", 1, 32, 0, 3},  {"another move", 1, 2, 4, 4},
        {"must settle", 1, 14, 1, 4},      {"rows at 17", 0, 12, 17, 4},
        {"mask 15", 0, 8, 15, 4},          {"K 2", 0, 6, 2, 5},
        {"wait 1,024", 0, 17, 4, 5},       {"move 2 out, and listed", 0, 8, 3, 5},
        {"not wholly lost", 0, 47, 0, 5},
    };
    for (size_t i = 0; i < sizeof faults / sizeof *faults; i++) {
        uint8_t plant[PLANT], book[BOOK];
        memcpy(plant, p, PLANT);
        memcpy(book, m1, BOOK);
        (faults[i].in_plant ? plant : book)[faults[i].at] = faults[i].value;
        lent l = {plant, book, PLANT, BOOK};
        if (!refused(faults[i].what, &l, faults[i].number)) {
            return 0;
        }
    }
    return 1;
}

int main(void) {
    if (planbook_make(p, PLANT, 7, m1, BOOK).number != 0 || !strip() || !invented() || !numbers() || !bytes()) {
        return 1;
    }
    printf("desk: %u calls\n", calls);
    return 0;
}
