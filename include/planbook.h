/*
 * planbook: control books for a strip line with moves withdrawn.
 *
 * Link target/staticlib/libplanbook_c.a, made by `rt staticlib planbook_c`. There is no global state, no heap and no
 * thread: every call works on the memory it is lent and on less than 256 KiB of stack. Any bytes may be handed in.
 *
 * planbook_gauge turns what a thickness gauge reads into a state, by a table of bands; it takes no plant and no book.
 * planbook_start and planbook_report are the mill desk: they follow a book from state to state.
 *
 * Plants, books and indexes are byte strings; docs/FORMATS.md describes them. There are two sorts. In a plant whose
 * last header number is 1 every run must settle: from some moment on all its states are settled, as bit 9 of their
 * labels says. In its books each row opens with a stage, and they are 2S bytes longer: 16 + 2S + 4SN. A plant with 0
 * there has books of 16 + 4SN bytes, without stages. A book's length tells its sort. Indexes are of one sort.
 *
 * Every call returns a `number`: 0 when it was accepted, otherwise the first of these that applies, and then every
 * other field is 0 and no byte was written; only a refused report has the state and the goal that it was handed:
 *
 *   1  the plant is under 16 bytes, a count is out of range (S 1 to 1,024, U 1 to 32, N 1 to 8, E 0 to 8,192), an
 *      offset or the length is wrong, the last header number is neither 0 nor 1, or plant_len differs from the length
 *   2  a label has a bit above bit N; bit 9 is free where the last header number is 1
 *   3  an arrow's state or move is out of range, or the arrows do not strictly ascend
 *  10  the bytes lent as index are not exactly the plant's index: those that planbook_index writes for it, and no more
 *   4  the book is under 16 bytes, its S, U or N is out of range, an offset is wrong, the length is that of neither
 *      sort, its mask has a bit at U or above, or book_len differs from the length; in every call that takes a plant too
 *      also S, U, N or the sort unlike the plant's
 *   5  a row is neither wholly lost nor with every wait at most 1,023, every move in the book's mask and, in a book with
 *      stages, the stage from 1 to S; or K is not the number of rows that are not lost. A row is wholly lost when all
 *      its numbers, the stage too, are 65,535
 *   9  the list of masks has a length that is not a multiple of 4 or is above 64 bytes
 *   6  the mask given, or any mask of the list, has a bit at U or above
 *   7  the book buffer is under 16 + 4SN bytes, for a plant that must settle under 16 + 2S + 4SN, or the drop buffer, or
 *      that for the states gained, under 2S; preview has the drop buffer alone, and index a buffer of 8 + 2E bytes
 *   8  a state, asked for, held or reported, is not below S, or the goal not below N
 *  11  the table of bands is not in order: there are not 1 to 64 bands with two kinds and two ends for each, a kind is
 *      neither 0 nor 1, an end that is a number is infinite or undefined, a band is empty (its upper end is not above
 *      its lower one), a band begins before the one before it ends, or a state is not below the S given
 *  12  the reading, the aim or the reading less the aim is infinite or undefined
 *  13  the state held is lost in the book handed in, or the state reported is not the end of an arrow of the move that
 *      consult gives for the state and the goal held
 *
 * Buffers must not overlap: neither each other nor what is lent for reading. A buffer that is lent for writing keeps
 * every byte past what the call writes. A pointer may be null only where its length is 0.
 */
#ifndef PLANBOOK_H
#define PLANBOOK_H

#include <stddef.h>
#include <stdint.h>

#ifdef __cplusplus
extern "C" {
#endif

/*
 * The longest plant, the longest index and the longest book, one with stages, what a list of states needs at most, and
 * the longest list of masks.
 */
#define PLANBOOK_PLANT_MAX 51216u
#define PLANBOOK_INDEX_MAX 16392u
#define PLANBOOK_BOOK_MAX 34832u
#define PLANBOOK_DROPS_MAX 2048u
#define PLANBOOK_MASKS_MAX 64u

/* The most bands of a table, and the kinds of a band's end: open without limit, and at a number. */
#define PLANBOOK_BANDS_MAX 64u
#define PLANBOOK_OPEN 0u
#define PLANBOOK_AT 1u

/* What make, withdraw, withdraw_list, return and index answer. */
typedef struct {
    uint32_t number; /* 0, or why it was refused */
    uint32_t length; /* bytes of the book or index written, from the buffer's first byte on */
    uint32_t drops;  /* states listed, two bytes each, from the list buffer's first byte on; 0 in make and index */
} planbook_answer;

/* What preview answers. */
typedef struct {
    uint32_t number; /* 0, or why it was refused */
    uint32_t drops;  /* states that would be dropped, two bytes each, from the drop buffer's first byte on */
    uint32_t kept;   /* states that would be kept: K of the book that withdraw would write */
} planbook_cost;

/*
 * What consult answers. The goal arrived at is the first, from the goal sought onward in turn, that the state does not
 * serve: whose wait in the state's row is not 0. After the last goal comes the first. If the state serves all of them,
 * it is the goal sought. In a book with stages a state that has a move wholly into earlier stages serves all goals: its
 * move leaves the stage.
 */
typedef struct {
    uint32_t number; /* 0, or why it was refused */
    uint32_t lost;   /* 1 when the state is lost; the fields below are then 0 */
    uint32_t move;   /* the move to make for the goal arrived at, below U */
    uint32_t wait;   /* the most moves it can take to that goal; 0 exactly when the state serves all goals. In a book
                        with stages, to that goal, an earlier stage, or a state whose move leaves the stage */
    uint32_t seek;   /* the goal arrived at: hand it in as the goal sought in the state that follows */
} planbook_advice;

/* What row answers: a part of the book lent. */
typedef struct {
    uint32_t number; /* 0, or why it was refused */
    uint32_t start;  /* the row's first byte in the book */
    uint32_t length; /* its length: 4 bytes for each goal, wait then move, two bytes each, and in a book with stages 2
                        bytes before them, the stage; 0 only when refused */
} planbook_part;

/* What moves answers. */
typedef struct {
    uint32_t number; /* 0, or why it was refused */
    uint32_t mask;   /* every good move for the goal arrived at (bit u is move u); 0 when the state is lost */
} planbook_mask;

/* What gauge answers. */
typedef struct {
    uint32_t number; /* 0, or why it was refused */
    uint32_t found;  /* 1 when a band holds the deviation; 0 when it lies in a gap, and when refused */
    uint32_t state;  /* that band's state, below S; 0 when none is found */
} planbook_place;

/* What start and report answer: what to do in the state that the desk is in now, and what it holds from then on. */
typedef struct {
    uint32_t number; /* 0, or why it was refused */
    uint32_t lost;   /* 1 when the state is lost; move, wait and seek are then 0 */
    uint32_t move;   /* the move to make for the goal arrived at, below U */
    uint32_t wait;   /* the most moves it can take to that goal, as in planbook_advice */
    uint32_t seek;   /* the goal arrived at */
    uint32_t state;  /* the state held: the one started in or reported. A refused report has the one handed in, a
                        refused start 0 */
    uint32_t goal;   /* the goal held: the one arrived at, in a lost state the one sought. A refused report has the one
                        handed in, a refused start 0 */
} planbook_desk;

/*
 * Makes the book of a plant with the moves of a mask in service (bit u is move u). In a plant that must settle a state
 * has the least stage k for which a strategy passes settled states alone and meets every goal again and again, or comes
 * to a state, settled or not, with a move wholly into stages below k. Refusals 1, 2, 3, 6, 7.
 */
planbook_answer planbook_make(const uint8_t *plant, size_t plant_len, uint32_t mask, uint8_t *book, size_t book_len);

/*
 * Withdraws the moves of a mask from a book and writes the new book to out. The kept states are those from which a
 * strategy wins with the remaining moves without leaving states kept in the book handed in; its stages and waits have
 * no part in it. The states kept before and lost now are written to drops by rising number, each as a two-byte number,
 * the low byte first. Refusals 1 to 7.
 */
planbook_answer planbook_withdraw(const uint8_t *plant, size_t plant_len, const uint8_t *book, size_t book_len,
                                  uint32_t mask, uint8_t *out, size_t out_len, uint8_t *drops, size_t drops_len);

/*
 * Withdraws the lines of a lock-out sheet: a list of up to 16 masks, four bytes each, the low byte first. The book
 * written to out is that of the single withdrawals in turn, and of one withdrawal of all moves that they name. The
 * states kept in the book handed in and lost in that one are written to drops by rising number. An empty list acts as
 * one mask of 0. A bad mask anywhere refuses the whole list. Refusals 1 to 5, then 9, 6 and 7.
 */
planbook_answer planbook_withdraw_list(const uint8_t *plant, size_t plant_len, const uint8_t *book, size_t book_len,
                                       const uint8_t *masks, size_t masks_len, uint8_t *out, size_t out_len,
                                       uint8_t *drops, size_t drops_len);

/*
 * Puts the moves of a mask back in service and writes the new book to out: that of a make with the moves of the book
 * handed in and those returned. Which states that book keeps has no part in it. The states kept now and not before are
 * written to gained by rising number, each as a two-byte number, the low byte first; the answer's drops counts them. A
 * state kept before and lost now is not listed; there is none if the book handed in came of a make for this plant and
 * any calls after it. To return a move that is in service has no effect. Refused as withdraw is; gained needs 2S bytes,
 * as drops does. Refusals 1 to 7.
 */
planbook_answer planbook_return(const uint8_t *plant, size_t plant_len, const uint8_t *book, size_t book_len,
                                uint32_t mask, uint8_t *out, size_t out_len, uint8_t *gained, size_t gained_len);

/*
 * Writes the plant's index, which is to be kept beside it: S, E, 8 and 8 + 2E, then the numbers of all arrows, from 0
 * in the order in which the plant has them, ordered by the state they end in, and those into one state by their number;
 * two bytes each, the low byte first. The answer's length is 8 + 2E. Labels, moves and masks have no part in it.
 * Refusals 1, 2, 3, 7.
 */
planbook_answer planbook_index(const uint8_t *plant, size_t plant_len, uint8_t *index, size_t index_len);

/*
 * Makes the very book that planbook_make makes, by the plant's index: states are struck out from a worklist, with the
 * arrows that end in each, where make may look at all arrows again in each round. Refusals 1, 2, 3, 10, 6, 7.
 */
planbook_answer planbook_make_indexed(const uint8_t *plant, size_t plant_len, const uint8_t *index, size_t index_len,
                                      uint32_t mask, uint8_t *book, size_t book_len);

/*
 * Withdraws the moves of a mask as planbook_withdraw does, with the same book and the same list of states, by the
 * plant's index. Refusals 1, 2, 3, 10, 4, 5, 6, 7.
 */
planbook_answer planbook_withdraw_indexed(const uint8_t *plant, size_t plant_len, const uint8_t *index,
                                          size_t index_len, const uint8_t *book, size_t book_len, uint32_t mask,
                                          uint8_t *out, size_t out_len, uint8_t *drops, size_t drops_len);

/*
 * What a lock-out would cost, before it is done: withdraws nothing and writes no book. The number dropped, the states
 * written to drops and K afterwards are those that withdraw would give for the same plant, book and mask, and drops and
 * kept add up to K of the book handed in. It is refused as withdraw is, but asks for no book buffer. Refusals 1 to 7.
 */
planbook_cost planbook_preview(const uint8_t *plant, size_t plant_len, const uint8_t *book, size_t book_len,
                               uint32_t mask, uint8_t *drops, size_t drops_len);

/*
 * What to do in a state when a goal is sought. Before a move is chosen every goal that the state serves is passed, from
 * the sought one onward in turn. To ask again for the goal answered gives the same answer. In a book that these
 * calls wrote for a plant, make the move answered and seek the goal answered in the state that follows, from any
 * kept state and any first goal on: that stays in kept states and meets every goal again and again, a goal that is
 * passed there and then, and the goal answered within the wait answered. In a book with stages the stage never rises,
 * fewer states than the first one's stage says are not settled, and what is said of single goals holds unless an earlier
 * stage is entered first, or by the move that follows. Takes books of both sorts. Refusals 4, 5, 8.
 */
planbook_advice planbook_consult(const uint8_t *book, size_t book_len, uint32_t state, uint32_t goal);

/* Where a state's row stands in the book lent, of either sort. Refusals 4, 5, 8 (the state alone). */
planbook_part planbook_row(const uint8_t *book, size_t book_len, uint32_t state);

/*
 * Every good move in a state when a goal is sought, for the goal that consult arrives at: the moves of the book's mask
 * that have an arrow there and all of whose arrows end in states that the book keeps and, where the state's wait for
 * that goal is above 0, with a smaller wait for it. In a book with stages no arrow may end in a later stage, and in an
 * earlier one any wait will do; but if some moves have all their arrows end in earlier stages, these alone are good. A
 * lost state has none. In a book that these calls wrote for this plant a kept state has at least one, and the lowest is
 * the move that consult gives; any pick, made anew at each step while the goals are sought as consult says, keeps what
 * is said of consult's own move. In any other book a kept state may have none, and the move that consult gives need not
 * be good. Refusals 1 to 5, 8.
 */
planbook_mask planbook_moves(const uint8_t *plant, size_t plant_len, const uint8_t *book, size_t book_len,
                             uint32_t state, uint32_t goal);

/*
 * From the gauge to a state: answers the state of the band that holds the deviation, which is the reading less the
 * aim. Reading, aim and ends are millimetres.
 *
 * A table of n bands is three lists: 2n kinds, 2n ends and n states. For each band the lower end comes first, then the
 * upper one. Kind 0 is an end open without limit, whatever number stands beside it; kind 1 is an end at the number
 * beside it. The lengths count numbers, not bytes. `states` is S: every band's state must be below it.
 *
 * The lower end is in the band, the upper one is not. Bands rise and do not overlap; where two touch, the end is in the
 * upper one. So only the first lower end and the last upper one can be open. A deviation between two bands or outside
 * all is in a gap: the call is accepted, and found is 0. -0.0 equals 0.0 everywhere: as a deviation it is in a band
 * from 0.0 on, and a band from one to the other is empty.
 *
 * The deviation is rounded once, as any subtraction of doubles is, and then held against the ends as they are: 4.1 less
 * 0.1 is 3.9999999999999996, which is below an end of 4.0. The proof is about IEEE 754 binary64 rounded to nearest,
 * ties to even. Programs start so. The calling thread must not have changed the rounding mode, as fesetround does, nor
 * have small numbers flushed to zero or taken for zero, as linking with -ffast-math may do: the deviation could then be
 * another.
 *
 * The table is checked in every call. Refusals 11, 12, in this order: a bad table is 11 whatever the reading is.
 */
planbook_place planbook_gauge(const uint8_t *kinds, size_t kinds_len, const double *ends, size_t ends_len,
                              const uint32_t *band_states, size_t band_states_len, uint32_t states, double reading,
                              double aim);

/*
 * The mill desk starts to follow a book: in a state, seeking goal 0. It answers what consult answers there, and what
 * the desk holds: a state and a goal. The desk keeps nothing itself: hand both in with each report, and keep what comes
 * back. Plant and book are checked as in withdraw. Refusals 1 to 5, 8.
 */
planbook_desk planbook_start(const uint8_t *plant, size_t plant_len, const uint8_t *book, size_t book_len,
                             uint32_t state);

/*
 * The desk is told which state followed the move that it gave in the state held. The goal that consult arrives at for
 * the state and the goal held is sought in the state reported, and what consult answers there is answered. The state
 * reported is then held, with the goal arrived at; a lost state with the goal sought. A refused report changes nothing:
 * state and goal come back as they were handed in. Refusals 1 to 5, 8 (the state held, the goal held, the state
 * reported), 13.
 *
 * For a plant whose last header number is 0 and a book that make, withdraw, withdraw_list, return or the ways by an
 * index wrote for it, both the same in every call: from a start in a kept state on, as long as each report is the end
 * of an arrow of the move given, none is refused and no state is lost. The goal sought is met within the wait that was
 * answered when it became the one sought, a goal that is passed over is met there, and every goal is met within N times
 * 1,023 moves from any moment on. Where all goals are served, which is where the wait is 0, the goal sought stays, and
 * is sought anew in the next state. In other books, and for plants that must settle, both calls answer as consult does.
 */
planbook_desk planbook_report(const uint8_t *plant, size_t plant_len, const uint8_t *book, size_t book_len,
                              uint32_t held_state, uint32_t held_goal, uint32_t reported);

#ifdef __cplusplus
}
#endif

#endif
