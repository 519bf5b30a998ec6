/*
 * The mill desk follows a book. The strip is in one of five thickness bands, or torn, and two orders run: it must be on
 * aim again and again, and thick again and again, for the weld. The book is made with all moves in service; then the
 * coarse screw moves are withdrawn. The desk starts far thin, says what to do, is told which band followed and goes on
 * from there; once it is told a band that the move cannot have led to, and stays where it was.
 */
#include <stdio.h>

#include "planbook.h"

enum { STATES = 6, GOALS = 2, ARROWS = 30, NUMBERS = 8 + STATES + 3 * ARROWS, BOOK = 16 + 4 * STATES * GOALS };

enum { FAR_THIN, THIN, ON_AIM, THICK, FAR_THICK, TORN };

static const char *const states[STATES] = {"far thin", "thin", "on aim", "thick", "far thick", "torn"};
static const char *const goals[GOALS] = {"on aim", "thick for the weld"};
static const char *const moves[5] = {"hold", "screws up, fine", "screws down, fine", "screws down, coarse",
                                     "screws up, coarse"};

/* The plant as 16-bit numbers. */
static const uint16_t numbers[NUMBERS] = {
    6, 5, 2, ARROWS, 16, 28, 208, 0, /* header: S, U, N, E, labels at, arrows at, length, 0 */
    1, 1, 3, 5, 1, 0,                /* labels: bit 0 allowed, bit 1 + i in goal i */
    0, 1, 1, /**/ 0, 2, 5, /**/ 0, 4, 1, /**/ 0, 4, 2, /* arrows: from, move, to */
    1, 0, 0, /**/ 1, 0, 1, /**/ 1, 1, 2, /**/ 1, 2, 0, /**/ 1, 3, 0, /**/ 1, 3, 5, /**/ 1, 4, 2, /**/ 1, 4, 3,
    2, 0, 1, /**/ 2, 0, 2, /**/ 2, 0, 3, /**/ 2, 1, 3, /**/ 2, 2, 1, /**/ 2, 3, 0, /**/ 2, 3, 1, /**/ 2, 4, 3,
    2, 4, 4, /**/ 3, 0, 3, /**/ 3, 0, 4, /**/ 3, 1, 4, /**/ 3, 2, 2, /**/ 3, 3, 1, /**/ 3, 3, 2,
    4, 2, 3, /**/ 4, 3, 2, /**/ 4, 3, 3,
};

static uint8_t plant[2 * NUMBERS], book[BOOK];

/* All that the desk keeps between two reports is a state and a goal. The rest is what it shows there. */
static planbook_desk desk;

/* Says what the desk shows. */
static void show(void) {
    if (desk.lost) {
        printf("lost. With the moves in service the orders cannot be kept from there; stop the line.\n");
    } else if (desk.wait == 0) {
        printf("all orders are met here. Make the move: %s.\n", moves[desk.move]);
    } else {
        printf("make the move: %s. The strip is %s after %u move%s at the most.\n", moves[desk.move], goals[desk.seek],
               (unsigned)desk.wait, desk.wait == 1 ? "" : "s");
    }
}

/* Starts the desk. Answers whether it was refused. */
static int start(uint32_t state) {
    desk = planbook_start(plant, sizeof plant, book, BOOK, state);
    if (desk.number != 0) {
        printf("start refused %u\n", (unsigned)desk.number);
        return 1;
    }
    printf("Started %s: ", states[state]);
    show();
    return 0;
}

/* Tells the desk which state followed. Answers whether it was refused for another reason than a wrong report. */
static int report(uint32_t state) {
    planbook_desk next = planbook_report(plant, sizeof plant, book, BOOK, desk.state, desk.goal, state);
    if (next.number == 13) {
        printf("Reported %s: refused. ", states[state]);
        if (desk.lost) {
            printf("The desk stands at %s, which is lost; start it anew where the strip is.\n", states[next.state]);
        } else {
            printf("From %s that cannot follow on %s; the desk stays as it was. Look again.\n", states[next.state],
                   moves[desk.move]);
        }
        return 0; /* what it held and showed stands */
    }
    if (next.number != 0) {
        printf("report refused %u\n", (unsigned)next.number);
        return 1;
    }
    desk = next;
    printf("Reported %s: ", states[state]);
    show();
    return 0;
}

/* Makes the book with all five moves and withdraws the coarse ones. Answers whether a call was refused. */
static int make_book(void) {
    uint8_t made[BOOK], drops[2 * STATES];
    for (size_t i = 0; i < NUMBERS; i++) {
        plant[2 * i] = (uint8_t)(numbers[i] % 256);
        plant[2 * i + 1] = (uint8_t)(numbers[i] / 256);
    }
    planbook_answer all = planbook_make(plant, sizeof plant, 0x1f, made, BOOK);
    planbook_answer fine = planbook_withdraw(plant, sizeof plant, made, BOOK, 0x18, book, BOOK, drops, sizeof drops);
    if (all.number != 0 || fine.number != 0) {
        printf("make refused %u, withdraw refused %u\n", (unsigned)all.number, (unsigned)fine.number);
        return 1;
    }
    printf("The coarse screw moves are out of service; that drops %u of the bands.\n", (unsigned)fine.drops);
    return 0;
}

int main(void) {
    if (make_book() || start(FAR_THIN) || report(THIN)) {
        return 1;
    }
    if (report(FAR_THICK) || report(ON_AIM)) { /* the first was misread */
        return 1;
    }
    if (report(THICK) || report(ON_AIM) || report(THICK)) { /* on aim and thick, again and again */
        return 1;
    }
    return start(TORN) || report(THIN); /* from a lost state the desk does not go on */
}
