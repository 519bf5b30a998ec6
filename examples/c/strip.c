/*
 * Strip plant P of the request: makes its book, withdraws move 2, asks in each state what to do for goal 0 and which
 * moves are good, and follows the book for some moves; then looks at what it would cost to withdraw move 0, withdraws a
 * list, move 1 and then move 0, and prints the drop list; at last returns move 0 and prints the states that come back.
 */
#include <stdio.h>

#include "planbook.h"

enum { BOOK = 48 }; /* the length of P's books: 16 + 4SN bytes for S 4 and N 2 */

enum { ARROWS_AT = 12, ARROWS = 8 }; /* where P's arrows begin among its numbers, and how many there are */

/* Strip plant P as 16-bit numbers. */
static const uint16_t numbers[36] = {
    4, 3, 2, 8, 16, 24, 72, 0, /* header: S, U, N, E, labels at, arrows at, length, 0 */
    3, 1, 5, 0,                /* labels: bit 0 allowed, bit 1 + i in goal i */
    0, 0, 1, 0, 1, 1, 0, 1, 2, /* arrows: from, move, to */
    1, 0, 2, 1, 1, 3, 1, 2, 0, 2, 0, 0, 2, 2, 1,
};

static uint8_t plant[72], list[8];

/* Writes P's numbers as bytes, the low byte first. */
static void pack(void) {
    for (size_t i = 0; i < 36; i++) {
        plant[2 * i] = (uint8_t)(numbers[i] % 256);
        plant[2 * i + 1] = (uint8_t)(numbers[i] / 256);
    }
}

/* The states in the list buffer, by rising number, and what became of them. */
static void print_states(uint32_t count, const char *what) {
    printf("%u %s", (unsigned)count, what);
    for (uint32_t i = 0; i < count; i++) {
        printf("%s %u", i == 0 ? ":" : ",", list[2 * i] + 256u * list[2 * i + 1]);
    }
    printf("\n");
}

/* Says so, if a call was refused. */
static int refused(const char *call, uint32_t number) {
    if (number != 0) {
        printf("%s refused %u\n", call, (unsigned)number);
    }
    return number != 0;
}

/* Writes the book without the moves of a mask, and says which states that drops. Answers whether it was refused. */
static int withdraw(const char *which, const uint8_t *book, uint32_t mask, uint8_t *out) {
    planbook_answer answer = planbook_withdraw(plant, sizeof plant, book, BOOK, mask, out, BOOK, list, sizeof list);
    if (refused("withdraw", answer.number)) {
        return 1;
    }
    printf("withdrew %s: %u bytes, ", which, (unsigned)answer.length);
    print_states(answer.drops, "dropped");
    return 0;
}

/* Writes the book without the moves of two masks, in turn, and says which states that drops in all. */
static int withdraw_both(const char *which, const uint8_t *book, uint8_t first, uint8_t second, uint8_t *out) {
    const uint8_t masks[8] = {first, 0, 0, 0, second, 0, 0, 0}; /* four bytes each, the low byte first */
    planbook_answer answer = planbook_withdraw_list(plant, sizeof plant, book, BOOK, masks, sizeof masks, out, BOOK,
                                                    list, sizeof list);
    if (refused("withdraw_list", answer.number)) {
        return 1;
    }
    printf("withdrew %s: %u bytes, ", which, (unsigned)answer.length);
    print_states(answer.drops, "dropped");
    return 0;
}

/* Writes the book with the moves of a mask back in service, and says which states that gains. */
static int put_back(const char *which, const uint8_t *book, uint32_t mask, uint8_t *out) {
    planbook_answer answer = planbook_return(plant, sizeof plant, book, BOOK, mask, out, BOOK, list, sizeof list);
    if (refused("return", answer.number)) {
        return 1;
    }
    printf("returned %s: %u bytes, ", which, (unsigned)answer.length);
    print_states(answer.drops, "gained"); /* of a return the answer's drops are the states gained */
    return 0;
}

/* Says what it would cost to withdraw the moves of a mask. Answers whether it was refused. */
static int preview(const char *which, const uint8_t *book, uint32_t mask) {
    planbook_cost cost = planbook_preview(plant, sizeof plant, book, BOOK, mask, list, sizeof list);
    if (refused("preview", cost.number)) {
        return 1;
    }
    printf("to withdraw %s would leave %u kept, ", which, (unsigned)cost.kept);
    print_states(cost.drops, "dropped");
    return 0;
}

/* What to do in each state for goal 0. */
static void print_advice(const uint8_t *book) {
    for (uint32_t state = 0; state < 4; state++) {
        planbook_advice advice = planbook_consult(book, BOOK, state, 0);
        planbook_part row = planbook_row(book, BOOK, state);
        planbook_mask good = planbook_moves(plant, sizeof plant, book, BOOK, state, 0);
        if (advice.lost) {
            printf("state %u: lost (row at %u)\n", (unsigned)state, (unsigned)row.start);
        } else {
            printf("state %u: move %u, or any of mask %u, wait %u, seek %u (row at %u, %u bytes)\n", (unsigned)state,
                   (unsigned)advice.move, (unsigned)good.mask, (unsigned)advice.wait, (unsigned)advice.seek,
                   (unsigned)row.start, (unsigned)row.length);
        }
    }
}

/* Stands for the line: the state that follows, the end of the move's last arrow there. */
static uint32_t reported(uint32_t state, uint32_t move) {
    uint32_t end = state;
    for (const uint16_t *arrow = numbers + ARROWS_AT; arrow < numbers + ARROWS_AT + 3 * ARROWS; arrow += 3) {
        if (arrow[0] == state && arrow[1] == move) {
            end = arrow[2];
        }
    }
    return end;
}

/* Follows the book from state 0 and goal 0: makes the move answered and seeks the goal answered. */
static void follow(const uint8_t *book, int moves) {
    uint32_t state = 0, goal = 0;
    for (int i = 0; i < moves; i++) {
        planbook_advice advice = planbook_consult(book, BOOK, state, goal);
        printf("in state %u seek goal %u, at most %u moves away: move %u\n", (unsigned)state, (unsigned)advice.seek,
               (unsigned)advice.wait, (unsigned)advice.move);
        goal = advice.seek;
        state = reported(state, advice.move);
    }
}

int main(void) {
    uint8_t made[BOOK], patched[BOOK], none[BOOK], again[BOOK];
    pack();

    if (refused("make", planbook_make(plant, sizeof plant, 7, made, BOOK).number) ||
        withdraw("move 2", made, 4, patched)) {
        return 1;
    }
    print_advice(patched);
    follow(patched, 4);
    if (preview("move 0 too", patched, 1) || withdraw_both("move 1 and then move 0", patched, 2, 1, none) ||
        put_back("move 0", none, 1, again)) {
        return 1;
    }
    return planbook_consult(again, BOOK, 4, 0).number == 8 ? 0 : 1;
}
