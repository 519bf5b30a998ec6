/*
 * How much stack the calls take: all fourteen run on a stack of their own that is painted first, and what they
 * overwrote is counted, for a plant of each sort. Prints the figures; fails at 256 KiB or more. The plants are the
 * largest there are.
 */
#include <stdio.h>
#include <string.h>
#include <ucontext.h>

#include "planbook.h"

enum { ROOM = 1 << 20, PAINT = 0xA5, STATES = 1024, ARROWS = 8192 };

static uint8_t stack[ROOM], plant[PLANBOOK_PLANT_MAX], book[PLANBOOK_BOOK_MAX], out[PLANBOOK_BOOK_MAX];
static uint8_t out_again[PLANBOOK_BOOK_MAX], drops[PLANBOOK_DROPS_MAX], masks[PLANBOOK_MASKS_MAX];
static uint8_t arrows_by_end[PLANBOOK_INDEX_MAX];
static ucontext_t main_context, call_context;
static unsigned refusals;

static void put(size_t at, unsigned v) {
    plant[at] = (uint8_t)(v % 256);
    plant[at + 1] = (uint8_t)(v / 256);
}

/*
 * 1,024 states, 32 moves, 8 goals, 8,192 arrows: from each state eight moves, each to the next state. The last header
 * number is given; if it is 1, every state from 512 on is settled, and the last one stays where it is, in all goals.
 */
static void build(unsigned last) {
    unsigned header[8] = {STATES, 32, 8, ARROWS, 16, 16 + 2 * STATES, 16 + 2 * STATES + 6 * ARROWS, last};
    for (size_t i = 0; i < 8; i++) put(2 * i, header[i]);
    size_t met = last ? STATES - 1 : 0;
    for (size_t x = 0; x < STATES; x++) put(16 + 2 * x, (x == met ? 0x1FFu : 1) + (last && x >= 512 ? 0x200u : 0));
    for (size_t k = 0; k < ARROWS; k++) {
        size_t at = 16 + 2 * STATES + 6 * k, next = k / 8 + 1;
        put(at, (unsigned)(k / 8));
        put(at + 2, (unsigned)(k % 8));
        put(at + 4, (unsigned)(next < STATES ? next : met));
    }
}

static void calls(void) {
    planbook_answer made = planbook_make(plant, sizeof plant, 0xFFFFFFFFu, book, sizeof book);
    planbook_cost cost = planbook_preview(plant, sizeof plant, book, made.length, 1, drops, sizeof drops);
    planbook_answer gone =
        planbook_withdraw(plant, sizeof plant, book, made.length, 1, out, sizeof out, drops, sizeof drops);
    refusals += made.number + cost.number + gone.number;
    planbook_answer list = planbook_withdraw_list(plant, sizeof plant, book, made.length, masks, sizeof masks, out,
                                                  sizeof out, drops, sizeof drops);
    planbook_answer none = /* an empty list may be null */
        planbook_withdraw_list(plant, sizeof plant, book, made.length, NULL, 0, out, sizeof out, drops, sizeof drops);
    planbook_answer back =
        planbook_return(plant, sizeof plant, out, none.length, 1, out_again, sizeof out_again, drops, sizeof drops);
    refusals += list.number + none.number + back.number;
    planbook_answer index = planbook_index(plant, sizeof plant, arrows_by_end, sizeof arrows_by_end);
    planbook_answer made_by = planbook_make_indexed(plant, sizeof plant, arrows_by_end, index.length, 0xFFFFFFFFu,
                                                    out_again, sizeof out_again);
    planbook_answer gone_by =
        planbook_withdraw_indexed(plant, sizeof plant, arrows_by_end, index.length, out_again, made_by.length, 1, out,
                                  sizeof out, drops, sizeof drops);
    refusals += index.number + made_by.number + gone_by.number;
    refusals += planbook_consult(out, gone.length, 1023, 7).number + planbook_row(out, gone.length, 1023).number;
    refusals += planbook_moves(plant, sizeof plant, out, gone.length, 1023, 7).number;
    const uint8_t kinds[2] = {PLANBOOK_OPEN, PLANBOOK_OPEN};
    const double ends[2] = {0.0, 0.0};
    const uint32_t band_states[1] = {1023};
    refusals += planbook_gauge(kinds, 2, ends, 2, band_states, 1, STATES, 2.013, 2.0).number;
    planbook_desk desk = planbook_start(plant, sizeof plant, out, gone.length, 1022);
    refusals += desk.number;
    desk = planbook_report(plant, sizeof plant, out, gone.length, desk.state, desk.goal, 1023);
    refusals += desk.number + desk.lost;
}

/* Bytes of stack that the calls take with the plant that is built. */
static size_t measure(void) {
    memset(stack, PAINT, sizeof stack);
    getcontext(&call_context);
    call_context.uc_stack.ss_sp = stack;
    call_context.uc_stack.ss_size = sizeof stack;
    call_context.uc_link = &main_context;
    makecontext(&call_context, calls, 0);
    swapcontext(&main_context, &call_context);
    size_t untouched = 0;
    while (untouched < sizeof stack && stack[untouched] == PAINT) untouched++;
    return sizeof stack - untouched;
}

int main(void) {
    build(0);
    size_t plain = measure();
    build(1);
    size_t settled = measure();
    printf("stack: %zu bytes, %zu with stages\n", plain, settled);
    return refusals == 0 && plain < 256 * 1024 && settled < 256 * 1024 ? 0 : 1;
}
