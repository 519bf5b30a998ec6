/*
 * Strip plant P of the request with an index of its arrows by where they end: builds it once, makes a book and
 * withdraws moves by it, and finds the books the same as without it; then shows that it is not the index of a plant in
 * which one arrow ends elsewhere, and builds that plant's own.
 */
#include <stdio.h>
#include <string.h>

#include "planbook.h"

enum { PLANT = 72, BOOK = 48, INDEX = 24, LIST = 8 }; /* for S 4, N 2 and E 8: INDEX is 8 + 2E bytes */

/* Strip plant P, the low byte of each number first. */
static const uint8_t p[PLANT] = {
    4, 0, 3, 0, 2, 0, 8, 0, 16, 0, 24, 0, 72, 0, 0, 0, /* header: S, U, N, E, labels at, arrows at, length, 0 */
    3, 0, 1, 0, 5, 0, 0, 0,                            /* labels: bit 0 allowed, bit 1 + i in goal i */
    0, 0, 0, 0, 1, 0, 0, 0, 1, 0, 1, 0, 0, 0, 1, 0, 2, 0, /* arrows: from, move, to */
    1, 0, 0, 0, 2, 0, 1, 0, 1, 0, 3, 0, 1, 0, 2, 0, 0, 0, /**/ 2, 0, 0, 0, 0, 0, 2, 0, 2, 0, 1, 0,
};

static uint8_t index_of_p[INDEX];

/* Says so, if a call was refused. */
static int refused(const char *call, uint32_t number) {
    if (number != 0) {
        printf("%s refused %u\n", call, (unsigned)number);
    }
    return number != 0;
}

/* Builds a plant's index and prints its numbers. Answers whether it was refused. */
static int build(const uint8_t *plant, uint8_t *index) {
    planbook_answer answer = planbook_index(plant, PLANT, index, INDEX);
    if (refused("index", answer.number)) {
        return 1;
    }
    printf("index of %u bytes:", (unsigned)answer.length);
    for (size_t at = 0; at < INDEX; at += 2) {
        printf("%s%u", at == 8 ? " | " : " ", index[at] + 256u * index[at + 1]);
    }
    printf("\n");
    return 0;
}

/* Makes P's book by its index; it is the book that make writes. Answers whether one of them was refused. */
static int make(uint32_t mask, uint8_t *book) {
    uint8_t plain[BOOK];
    if (refused("make_indexed", planbook_make_indexed(p, PLANT, index_of_p, INDEX, mask, book, BOOK).number) ||
        refused("make", planbook_make(p, PLANT, mask, plain, BOOK).number)) {
        return 1;
    }
    printf("made with mask %u: %u kept, %s\n", (unsigned)mask, book[6] + 256u * book[7],
           memcmp(book, plain, BOOK) == 0 ? "as without the index" : "not as without the index");
    return 0;
}

/* Withdraws moves from a book by P's index, as withdraw does without it, and says which states that drops. */
static int withdraw(const uint8_t *book, uint32_t mask, uint8_t *out) {
    uint8_t plain[BOOK], list[LIST] = {0}, plain_list[LIST] = {0};
    planbook_answer answer =
        planbook_withdraw_indexed(p, PLANT, index_of_p, INDEX, book, BOOK, mask, out, BOOK, list, LIST);
    planbook_answer same = planbook_withdraw(p, PLANT, book, BOOK, mask, plain, BOOK, plain_list, LIST);
    if (refused("withdraw_indexed", answer.number) || refused("withdraw", same.number)) {
        return 1;
    }
    int alike = memcmp(out, plain, BOOK) == 0 && memcmp(list, plain_list, LIST) == 0 && answer.drops == same.drops;
    printf("withdrew mask %u: %u dropped, %s\n", (unsigned)mask, (unsigned)answer.drops,
           alike ? "as without the index" : "not as without the index");
    return 0;
}

int main(void) {
    uint8_t other[PLANT], index_of_other[INDEX], made[BOOK], rest[BOOK], none[BOOK];

    if (build(p, index_of_p) || make(7, made) || withdraw(made, 4, rest) || withdraw(rest, 1, none)) {
        return 1;
    }

    /* Arrow 3 ends in state 0, and no longer in state 2: P's index will not do, and a new one is built. */
    memcpy(other, p, PLANT);
    other[46] = 0;
    refused("make_indexed", planbook_make_indexed(other, PLANT, index_of_p, INDEX, 7, made, BOOK).number);
    if (build(other, index_of_other)) {
        return 1;
    }
    return planbook_make_indexed(other, PLANT, index_of_other, INDEX, 7, made, BOOK).number == 0 ? 0 : 1;
}
