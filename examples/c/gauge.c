/*
 * From the gauge to a state: a table of bands around the aim, as a clerk's sheet has it, and some readings. The states
 * are those of examples/gauge-bands.plant: 0 far thin, 1 thin, 2 on aim, 3 thick, 4 far thick, 5 torn.
 */
#include <math.h>
#include <stdio.h>

#include "planbook.h"

enum { BANDS = 5, STATES = 6 };

/*
 * The sheet, in millimetres off the aim. Each band has a lower end, which is in it, and an upper one, which is not. The
 * outermost are open: their numbers mean nothing. Between 0.08 and 0.10 the sheet says nothing: there is a gap.
 *
 *   below -0.08        far thin      state 0
 *   -0.08 to -0.02     thin          state 1
 *   -0.02 to  0.02     on aim        state 2
 *    0.02 to  0.08     thick         state 3
 *    0.10 and above    far thick     state 4
 */
static uint8_t kinds[2 * BANDS] = {PLANBOOK_OPEN, PLANBOOK_AT, PLANBOOK_AT, PLANBOOK_AT, PLANBOOK_AT,
                                   PLANBOOK_AT,   PLANBOOK_AT, PLANBOOK_AT, PLANBOOK_AT, PLANBOOK_OPEN};
static double ends[2 * BANDS] = {0, -0.08, -0.08, -0.02, -0.02, 0.02, 0.02, 0.08, 0.10, 0};
static uint32_t states[BANDS] = {0, 1, 2, 3, 4};

static const char *const names[STATES] = {"far thin", "thin", "on aim", "thick", "far thick", "torn"};

/* Asks for one reading and says what it comes to. The lengths count numbers, not bytes. */
static void show(double reading, double aim) {
    planbook_place place = planbook_gauge(kinds, 2 * BANDS, ends, 2 * BANDS, states, BANDS, STATES, reading, aim);
    printf("reading %.3f, aim %.3f: ", reading, aim);
    if (place.number == 11) {
        printf("refused 11, the table is not in order\n");
    } else if (place.number == 12) {
        printf("refused 12, not a finite number\n");
    } else if (place.found) {
        printf("state %u, %s\n", (unsigned)place.state, names[place.state]);
    } else {
        printf("in no band\n");
    }
}

int main(void) {
    show(2.005, 2.0);
    show(1.95, 2.0);
    show(1.5, 2.0);
    show(2.05, 2.0);
    show(2.09, 2.0); /* in the gap */
    show(2.5, 2.0);

    /* An end is in the band above it. With an aim of 0 the reading is the deviation. */
    show(-0.02, 0.0);
    show(0.02, 0.0);
    show(0.08, 0.0); /* the upper end of thick, and the gap's first number */

    /*
     * The deviation is rounded, and the band is found by what it is then. On paper 0.58 less 0.50 is 0.08, the upper
     * end of thick; as doubles it is 0.07999999999999996. A reading on an end by the sheet may fall on either side.
     */
    show(0.58, 0.5);

    /* A gauge that has lost its signal must not look like a reading. */
    show(NAN, 2.0);

    /* A slip of the pen: thin would end where thick does. The whole table is refused, with every reading. */
    ends[3] = 0.08;
    show(2.005, 2.0);
    show(NAN, 2.0);
    ends[3] = -0.02;

    /* A state that the plant does not have. */
    states[4] = STATES;
    show(2.005, 2.0);
    return 0;
}
