//! What document 01 fixes by hand: the marked examples M1 to M11, and the table of refusals with its edges; and what
//! requests (i), (ii), (iv), (v), (vi) and (vii) of document 02 say of the good moves, of drop lists, of previews, of
//! the goals that are passed, of lists of withdrawals and of returns, worked out by hand. What request (viii) says of
//! indexes is in [`index`], what request (ix) says of plants that must settle in [`settle`], what request (xi) says of
//! the gauge in [`gauge`], and what request (xii) says of the desk in [`desk`]. Run on any planner, gauge or desk.

use planbook::calls::{mask_bytes, Calls};
use planbook::plants::{self, bytes_of, Model};
use planbook::sys::{Advice, Answer, Cost, Mask, Part};

pub mod desk;
pub mod gauge;
pub mod index;
pub mod settle;

const LOST: u16 = u16::MAX;

/// Strip plant P.
const P: [u16; 36] = [
    4, 3, 2, 8, 16, 24, 72, 0, // header
    3, 1, 5, 0, // labels
    0, 0, 1, /**/ 0, 1, 1, /**/ 0, 1, 2, /**/ 1, 0, 2, // arrows
    1, 1, 3, /**/ 1, 2, 0, /**/ 2, 0, 0, /**/ 2, 2, 1,
];

/// P's rows with all moves in service (M1).
const M1_ROWS: [u16; 16] = [0, 0, 2, 0, /**/ 1, 2, 1, 0, /**/ 1, 0, 0, 0, /**/ LOST, LOST, LOST, LOST];

/// The rows of M9's book, which nobody made: M1's with row 1 lost.
const M9_ROWS: [u16; 16] =
    [0, 0, 2, 0, /**/ LOST, LOST, LOST, LOST, /**/ 1, 0, 0, 0, /**/ LOST, LOST, LOST, LOST];

/// P's rows with move 0 alone in service: it leads round, from 0 to 1, to 2 and to 0 again. With move 1 beside it they
/// are the same (M2).
const ROUND_ROWS: [u16; 16] =
    [0, 0, 2, 0, /**/ 2, 0, 1, 0, /**/ 1, 0, 0, 0, /**/ LOST, LOST, LOST, LOST];

/// Rows that keep state 3, too, which P does not allow.
const NOT_ALLOWED_ROWS: [u16; 16] = [0, 0, 2, 0, /**/ 1, 2, 1, 0, /**/ 1, 0, 0, 0, /**/ 0, 0, 0, 0];

/// Rows in which each state that P allows serves both goals.
const ALL_SERVED_ROWS: [u16; 16] =
    [0, 0, 0, 0, /**/ 0, 0, 0, 0, /**/ 0, 0, 0, 0, /**/ LOST, LOST, LOST, LOST];

/// A book of P with these rows.
fn book_of_p(kept: u16, mask: u16, rows: [u16; 16]) -> Vec<u8> {
    bytes_of([4, 3, 2, kept, mask, 0, 16, 48].iter().chain(&rows))
}

fn made(planner: &dyn Calls, plant: &[u16], mask: u32, length: usize) -> Vec<u8> {
    let mut book = vec![0xa5; length];
    let answer = planner.make(&bytes_of(plant), mask, &mut book);
    assert_eq!(answer, Answer { number: 0, length: length as u32, drops: 0 });
    book
}

fn advice(action: u32, wait: u32, seek: u32) -> Advice {
    Advice { number: 0, lost: 0, action, wait, seek }
}

fn check_withdrawal(planner: &dyn Calls, book: &[u8], mask: u32, expected: &[u8], dropped: &[u16]) {
    check_written(expected, dropped, |out, list| planner.withdraw(&bytes_of(&P), book, mask, out, list));
}

/// An accepted list of withdrawals from a book of P.
fn check_list(planner: &dyn Calls, book: &[u8], masks: &[u8], expected: &[u8], dropped: &[u16]) {
    check_written(expected, dropped, |out, list| planner.withdraw_list(&bytes_of(&P), book, masks, out, list));
}

/// An accepted withdrawal or return, in buffers that are longer than is needed.
fn check_written(expected: &[u8], states: &[u16], call: impl FnOnce(&mut [u8], &mut [u8]) -> Answer) {
    let just = just_enough(expected);
    check_written_in(just.map(|length| length + 2), expected, states, call);
}

/// An accepted withdrawal or return, in buffers of these lengths: the book, the states that are listed, and the bytes
/// past both as they were.
fn check_written_in(
    lengths: [usize; 2],
    expected: &[u8],
    states: &[u16],
    call: impl FnOnce(&mut [u8], &mut [u8]) -> Answer,
) {
    let [mut out, mut list] = lengths.map(|length| vec![0xa5; length]);
    let answer = call(&mut out, &mut list);
    assert_eq!(answer, Answer { number: 0, length: expected.len() as u32, drops: states.len() as u32 });
    assert_eq!(out, [expected, &vec![0xa5; lengths[0] - expected.len()]].concat(), "the book, and bytes past it stay");
    assert_eq!(list, listed(states, lengths[1]));
}

/// How long the buffers must be for a book: for itself, and for a list of all its states.
fn just_enough(book: &[u8]) -> [usize; 2] {
    [book.len(), 2 * usize::from(u16::from_le_bytes([book[0], book[1]]))]
}

/// A drop buffer of this length that had 0xa5 in every byte: the states by rising number, and the bytes past them as
/// they were.
fn listed(states: &[u16], length: usize) -> Vec<u8> {
    [bytes_of(states), vec![0xa5; length - 2 * states.len()]].concat()
}

/// An accepted return to a book: in buffers that are just long enough and longer, and refused if either is one byte
/// short.
fn check_return(planner: &dyn Calls, plant: &[u8], book: &[u8], mask: u32, expected: &[u8], gained: &[u16]) {
    let [length, list_length] = just_enough(expected);
    for lengths in [[length, list_length], [length + 3, list_length + 3]] {
        check_written_in(lengths, expected, gained, |out, list| planner.return_moves(plant, book, mask, out, list));
    }
    for lengths in [[length - 1, list_length], [length, list_length - 1]] {
        check_return_number(planner, plant, book, mask, lengths, 7);
    }
}

/// An accepted preview, with a drop buffer of just 2S bytes and a longer one; and refused with one byte less.
fn check_cost(planner: &dyn Calls, plant: &[u8], book: &[u8], mask: u32, dropped: &[u16], kept: u32) {
    let just = 2 * usize::from(u16::from_le_bytes([plant[0], plant[1]]));
    for length in [just, just + 3] {
        let mut list = vec![0xa5; length];
        let cost = planner.preview(plant, book, mask, &mut list);
        assert_eq!(cost, Cost { number: 0, drops: dropped.len() as u32, kept }, "mask {mask:#x} of {book:?}");
        assert_eq!(list, listed(dropped, length), "mask {mask:#x} of {book:?}");
    }
    check_preview(planner, plant, book, mask, just - 1, 7);
}

/// M1 to M11.
pub fn marked_examples(planner: &dyn Calls) {
    let m1 = book_of_p(3, 7, M1_ROWS);
    assert_eq!(made(planner, &P, 7, 48), m1, "M1");

    let mut m2_rows = M1_ROWS;
    m2_rows[4..6].copy_from_slice(&[2, 0]);
    check_withdrawal(planner, &m1, 4, &book_of_p(3, 3, m2_rows), &[]); // M2
    check_withdrawal(planner, &m1, 1, &book_of_p(0, 6, [LOST; 16]), &[0, 1, 2]); // M3
    check_withdrawal(planner, &m1, 2, &book_of_p(3, 5, M1_ROWS), &[]); // M4

    // One state or two, one move, one goal: labels, then arrows, and the book's K and rows.
    let small = |name: &str, plant: &[u16], book: &[u16]| {
        assert_eq!(made(planner, plant, 1, 2 * book.len()), bytes_of(book), "{name}");
    };
    small("M5", &[1, 1, 1, 0, 16, 18, 18, 0, 3], &[1, 1, 1, 0, 1, 0, 16, 20, LOST, LOST]);
    small("M6", &[1, 1, 1, 1, 16, 18, 24, 0, 3, 0, 0, 0], &[1, 1, 1, 1, 1, 0, 16, 20, 0, 0]);
    small("M7", &[1, 1, 1, 1, 16, 18, 24, 0, 1, 0, 0, 0], &[1, 1, 1, 0, 1, 0, 16, 20, LOST, LOST]);
    small(
        "M8",
        &[2, 1, 1, 3, 16, 20, 38, 0, 1, 3, 0, 0, 0, 0, 0, 1, 1, 0, 1],
        &[2, 1, 1, 1, 1, 0, 16, 24, LOST, LOST, 0, 0],
    );
    small("M11", &[2, 1, 1, 1, 16, 20, 26, 0, 1, 3, 0, 0, 1], &[2, 1, 1, 0, 1, 0, 16, 24, LOST, LOST, LOST, LOST]);

    check_withdrawal(planner, &book_of_p(2, 7, M9_ROWS), 0, &book_of_p(0, 7, [LOST; 16]), &[0, 2]); // M9

    assert_eq!(planner.consult(&m1, 0, 1), advice(0, 2, 1), "M10");
    assert_eq!(planner.consult(&m1, 2, 1), advice(0, 1, 0), "M10");
    // The others: state 0 serves goal 0, which is passed, state 1 serves none, and state 2 serves goal 1 alone.
    assert_eq!(planner.consult(&m1, 0, 0), advice(0, 2, 1));
    assert_eq!(planner.consult(&m1, 1, 0), advice(2, 1, 0));
    assert_eq!(planner.consult(&m1, 1, 1), advice(0, 1, 1));
    assert_eq!(planner.consult(&m1, 2, 0), advice(0, 1, 0));
    for goal in 0..2 {
        assert_eq!(planner.consult(&m1, 3, goal), Advice { lost: 1, ..Advice::default() });
    }
    for state in 0..4 {
        assert_eq!(planner.row(&m1, state), Part { number: 0, start: 16 + 8 * state, length: 8 });
    }
}

/// What the rules fix beside the marked examples: a way through lost states is no way, the highest move of 32, and a
/// state that the book handed in keeps though the plant does not allow it.
pub fn further_examples(planner: &dyn Calls) {
    let through_lost = [4, 2, 1, 4, 16, 24, 48, 0, 1, 3, 1, 3, 0, 0, 1, 0, 1, 2, 2, 0, 3, 3, 0, 3];
    let rows = [2, 1, LOST, LOST, 1, 0, 0, 0];
    let book: Vec<u16> = [4, 2, 1, 3, 3, 0, 16, 32].into_iter().chain(rows).collect();
    assert_eq!(made(planner, &through_lost, 3, 32), bytes_of(&book));

    let highest = [1, 32, 1, 1, 16, 18, 24, 0, 3, 0, 31, 0];
    assert_eq!(made(planner, &highest, 1 << 31, 20), bytes_of(&[1, 32, 1, 1, 0, 0x8000, 16, 20, 0, 31]));
    assert_eq!(made(planner, &highest, u32::MAX >> 1, 20), bytes_of(&[1, 32, 1, 0, LOST, 0x7fff, 16, 20, LOST, LOST]));

    check_withdrawal(planner, &book_of_p(4, 7, NOT_ALLOWED_ROWS), 0, &book_of_p(3, 7, M1_ROWS), &[3]);
}

/// Previews of the marked examples' withdrawals, and some more of P, by hand.
pub fn previews(planner: &dyn Calls) {
    let plant = bytes_of(&P);
    let check = |book: &[u8], mask, dropped: &[u16], kept| check_cost(planner, &plant, book, mask, dropped, kept);
    let m1 = book_of_p(3, 7, M1_ROWS);
    check(&m1, 4, &[], 3); // M2
    check(&m1, 1, &[0, 1, 2], 0); // M3
    check(&m1, 2, &[], 3); // M4
    check(&book_of_p(2, 7, M9_ROWS), 0, &[0, 2], 0); // M9

    // To withdraw no move, or one that is out already, costs nothing; to withdraw all drops whatever is kept.
    check(&m1, 0, &[], 3);
    check(&book_of_p(3, 5, M1_ROWS), 2, &[], 3);
    check(&m1, 7, &[0, 1, 2], 0);

    // Some dropped and some kept: state 3, which the plant does not allow, and which the book keeps all the same.
    check(&book_of_p(4, 7, NOT_ALLOWED_ROWS), 0, &[3], 3);
    check(&book_of_p(4, 7, NOT_ALLOWED_ROWS), 1, &[0, 1, 2, 3], 0);

    // Nothing is kept, so nothing is dropped.
    check(&book_of_p(0, 7, [LOST; 16]), 1, &[], 0);
}

/// Lists of withdrawals from books of P, by hand.
pub fn lists(planner: &dyn Calls) {
    let check = |book: &[u8], masks: &[u32], expected: &[u8], dropped: &[u16]| {
        check_list(planner, book, &mask_bytes(masks), expected, dropped);
    };
    let [m1, without_move_1] = [7, 5].map(|mask| book_of_p(3, mask, M1_ROWS));
    let round = book_of_p(3, 1, ROUND_ROWS);
    let lost = |mask| book_of_p(0, mask, [LOST; 16]);
    let mut m2_rows = M1_ROWS;
    m2_rows[4..6].copy_from_slice(&[2, 0]);
    let m2 = book_of_p(3, 3, m2_rows);

    // Moves 1 and 2, in either order and both at once: move 0 leads round.
    check_list(planner, &m1, &[2, 0, 0, 0, 4, 0, 0, 0], &round, &[]);
    check(&m1, &[4, 2], &round, &[]);
    check(&m1, &[6], &round, &[]);
    // Without move 2 all stay, and then without move 0 none does; or the other way round.
    check(&m1, &[4, 1], &lost(2), &[0, 1, 2]);
    check(&m1, &[1, 4], &lost(2), &[0, 1, 2]);
    // A move that is named again stays out of service.
    check(&m1, &[2, 2], &without_move_1, &[]);
    check(&without_move_1, &[2, 0, 6, 4], &round, &[]);

    // No move, by one mask and by none: M1's book as it was. In M9's book, which nobody made, every move of state 0 may
    // lead to the lost state 1, so that it is lost, too, and then state 2, whose moves lead to 0 and to 1.
    check(&m1, &[0], &m1, &[]);
    check(&m1, &[], &m1, &[]);
    let m9 = book_of_p(2, 7, M9_ROWS);
    check(&m9, &[], &lost(7), &[0, 2]);
    check(&m9, &[0, 0], &lost(7), &[0, 2]);
    check(&m9, &[2, 4], &lost(1), &[0, 2]);

    // State 3, which the plant does not allow, goes with the first mask, and the others with the last: by rising number
    // all the same.
    let not_allowed = book_of_p(4, 7, NOT_ALLOWED_ROWS);
    check(&not_allowed, &[], &m1, &[3]);
    check(&not_allowed, &[2, 4], &round, &[3]);
    check(&not_allowed, &[4, 1], &lost(2), &[0, 1, 2, 3]);
    // Nothing is kept, so nothing is dropped.
    check(&lost(7), &[4, 1], &lost(2), &[]);

    // 15 masks and 16, with the one that tells first, last or between.
    check(&m1, &[0; 15], &m1, &[]);
    check(&m1, &[0; 16], &m1, &[]);
    for at in 0..16 {
        let mut masks = [0; 16];
        masks[at] = 4;
        check(&m1, &masks, &m2, &[]);
    }
}

/// 32 states in the one goal, each of which stays where it is by the move of its own number.
fn posts() -> Vec<u8> {
    let arrows = (0..32).map(|state| [state, state, state]).collect();
    Model { moves: 32, goals: 1, settles: false, labels: vec![3; 32], arrows }.bytes()
}

/// The book of that plant: a state is kept exactly when its move is in service.
fn posts_book(mask: u32) -> Vec<u8> {
    let rows = (0..32).flat_map(|state| if mask >> state & 1 != 0 { [0, state] } else { [LOST; 2] });
    let header = [32, 32, 1, mask.count_ones() as u16, mask as u16, (mask >> 16) as u16, 16, 144];
    bytes_of(&header.into_iter().chain(rows).collect::<Vec<u16>>())
}

/// Lists of withdrawals that drop a state with each mask, by hand.
pub fn lists_that_drop_with_each_mask(planner: &dyn Calls) {
    let plant = posts();
    let check = |made: u32, masks: &[u32], left: u32, dropped: &[u16]| {
        let (book, masks) = (posts_book(made), mask_bytes(masks));
        let withdraw = |out: &mut [u8], list: &mut [u8]| planner.withdraw_list(&plant, &book, &masks, out, list);
        check_written(&posts_book(left), dropped, withdraw);
    };
    // The upper half, from the highest down; every other one, from the lowest up; and all, two with each mask.
    let of = |moves: [u16; 16]| moves.map(|action| 1 << action);
    check(u32::MAX, &of(std::array::from_fn(|at| 31 - at as u16)), 0xffff, &(16..32).collect::<Vec<u16>>());
    let even = std::array::from_fn(|at| 2 * at as u16);
    check(u32::MAX, &of(even), 0xaaaa_aaaa, &even);
    let pairs: [u32; 16] = std::array::from_fn(|at| 1 << at | 1 << (31 - at));
    check(u32::MAX, &pairs, 0, &(0..32).collect::<Vec<u16>>());
    // Moves 0 and 31, each named twice, and moves 8 and 9, which are out already, with states 8 and 9 lost.
    check(!0x300, &[1 << 31, 1 << 9, 1, 1 << 31, 1, 1 << 8], !0x8000_0301, &[0, 31]);
}

/// Returns to books of P, by hand.
pub fn returns(planner: &dyn Calls) {
    let check = |book: &[u8], mask, expected: &[u8], gained: &[u16]| {
        check_return(planner, &bytes_of(&P), book, mask, expected, gained);
    };
    let m1 = book_of_p(3, 7, M1_ROWS);
    let m2 = book_of_p(3, 3, ROUND_ROWS);
    let without_move_1 = book_of_p(3, 5, M1_ROWS); // M4
    let round = book_of_p(3, 1, ROUND_ROWS);
    let lost = |mask| book_of_p(0, mask, [LOST; 16]);

    // Move 2 comes back: state 1 has its short way to goal 0 again, and no state had been lost. Move 1 comes back,
    // which no entry lists.
    check(&m2, 4, &m1, &[]);
    check(&round, 4, &without_move_1, &[]);
    check(&without_move_1, 2, &m1, &[]);
    check(&round, 2, &m2, &[]);
    check(&round, 6, &m1, &[]);
    // Move 0 comes back, without which all is lost (M3): to moves 1 and 2, to one of them, and to none.
    check(&lost(6), 1, &m1, &[0, 1, 2]);
    check(&lost(4), 1, &without_move_1, &[0, 1, 2]);
    check(&lost(2), 1, &m2, &[0, 1, 2]);
    check(&lost(0), 1, &round, &[0, 1, 2]);
    check(&lost(0), 7, &m1, &[0, 1, 2]);
    // Others come back, and it does not.
    check(&lost(2), 4, &lost(6), &[]);
    check(&lost(0), 6, &lost(6), &[]);

    // Moves that are in service already, and no move at all.
    for mask in 0..8 {
        check(&m1, mask, &m1, &[]);
    }
    check(&round, 1, &round, &[]);
    check(&without_move_1, 3, &m1, &[]);
    check(&lost(6), 7, &m1, &[0, 1, 2]);
    check(&m2, 0, &m2, &[]);
    check(&lost(6), 6, &lost(6), &[]);
    check(&lost(0), 0, &lost(0), &[]);
}

/// Returns to books of P that nobody made, by hand: the moves in service count for the new book, and the kept states
/// for the list alone.
pub fn returns_to_invented_books(planner: &dyn Calls) {
    let check = |book: &[u8], mask, expected: &[u8], gained: &[u16]| {
        check_return(planner, &bytes_of(&P), book, mask, expected, gained);
    };
    let m1 = book_of_p(3, 7, M1_ROWS);
    let round = book_of_p(3, 1, ROUND_ROWS);
    let lost = |mask| book_of_p(0, mask, [LOST; 16]);

    // M9's book: state 1 comes back, whichever moves are named; so it is also with fewer moves in service.
    for mask in 0..8 {
        check(&book_of_p(2, 7, M9_ROWS), mask, &m1, &[1]);
    }
    check(&book_of_p(2, 1, M9_ROWS), 0, &round, &[1]);
    check(&book_of_p(2, 1, M9_ROWS), 6, &m1, &[1]);
    // All is lost though all moves are in service.
    check(&lost(7), 0, &m1, &[0, 1, 2]);
    check(&lost(1), 0, &round, &[0, 1, 2]);

    // State 3, which the plant does not allow, is kept before and lost now: it is not listed. The others are if they
    // were lost.
    check(&book_of_p(4, 7, NOT_ALLOWED_ROWS), 0, &m1, &[]);
    check(&book_of_p(4, 5, NOT_ALLOWED_ROWS), 2, &m1, &[]);
    let with_state_3 = |kept: u16, rows: [u16; 12]| {
        let rows: Vec<u16> = rows.into_iter().chain([0; 4]).collect();
        book_of_p(kept, 7, rows.try_into().expect("16 numbers"))
    };
    check(&with_state_3(1, [LOST; 12]), 0, &m1, &[0, 1, 2]);
    let state_1_too = [LOST, LOST, LOST, LOST, 1, 2, 1, 0, LOST, LOST, LOST, LOST];
    check(&with_state_3(2, state_1_too), 1, &m1, &[0, 2]);

    // Waits and moves of the old rows do not count. With move 2 alone in service all is lost, though the book keeps
    // every state; with moves 0 and 2 state 3 alone is.
    check(&book_of_p(3, 7, ALL_SERVED_ROWS), 0, &m1, &[]);
    let far: [u16; 16] = std::array::from_fn(|at| if at % 2 == 0 { 1023 } else { 2 });
    check(&book_of_p(4, 4, far), 0, &lost(4), &[]);
    check(&book_of_p(4, 4, far), 1, &book_of_p(3, 5, M1_ROWS), &[]);
}

/// Returns by which a state comes back for each move, by hand, up to the highest of 32 moves.
pub fn returns_that_gain_with_each_move(planner: &dyn Calls) {
    let plant = posts();
    let check = |made: u32, mask: u32, gained: &[u16]| {
        check_return(planner, &plant, &posts_book(made), mask, &posts_book(made | mask), gained);
    };
    for state in 0..32 {
        check(0, 1 << state, &[state]);
        check(!(1 << state), 1 << state, &[state]);
    }
    check(0, u32::MAX, &(0..32).collect::<Vec<u16>>());
    check(0xffff, 0xffff_0000, &(16..32).collect::<Vec<u16>>());
    check(0xaaaa_aaaa, 0x5555_5555, &(0..32).step_by(2).collect::<Vec<u16>>());
    // Moves 0, 16 and 31 come back, and moves 8 and 9 are named that never went.
    check(!0x8001_0001, 0x8001_0301, &[0, 16, 31]);
    check(u32::MAX, u32::MAX, &[]);
}

/// Returns to the longest plant, by hand: without move 0 all states are lost, and with it all are kept. All but the
/// last are in every goal and go on by move 0, and the last comes to them by it.
pub fn returns_of_the_longest(planner: &dyn Calls) {
    let plant = plants::longest().bytes();
    let with = |kept, mask: u32, row: &dyn Fn(u16) -> [u16; 2]| {
        let header = [1024, 32, 8, kept, mask as u16, (mask >> 16) as u16, 16, 32_784];
        let rows = (0..1024).flat_map(|state| [row(state); 8].concat());
        bytes_of(&header.into_iter().chain(rows).collect::<Vec<u16>>())
    };
    let lost = |mask| with(0, mask, &|_| [LOST; 2]);
    let kept = |mask| with(1024, mask, &|state| [if state == 1023 { 1 } else { 0 }, 0]);
    let all: Vec<u16> = (0..1024).collect();
    check_return(planner, &plant, &lost(!1), 1, &kept(u32::MAX), &all);
    check_return(planner, &plant, &lost(0), 1, &kept(1), &all);
    check_return(planner, &plant, &kept(1), !1, &kept(u32::MAX), &[]);
    check_return(planner, &plant, &lost(0), !1, &lost(!1), &[]);
}

/// The longest plant, and its book with all moves in service, in which every state is kept.
fn longest(planner: &dyn Calls) -> (Vec<u8>, Vec<u8>) {
    let plant = plants::longest().bytes();
    let mut book = vec![0; 32_784];
    assert_eq!((plant.len(), planner.make(&plant, u32::MAX, &mut book).length), (51_216, 32_784));
    (plant, book)
}

/// Previews of the longest plant, by hand: 2,048 bytes for the list will do, though its books have 32,784, and 2,047
/// will not. All states but the last have move 0 alone, each to the next; the last leads to them by moves 0 to 7.
/// Without move 0 all are lost, without move 1 none is.
pub fn previews_of_the_longest(planner: &dyn Calls) {
    let (plant, book) = longest(planner);
    check_cost(planner, &plant, &book, 1, &(0..1024).collect::<Vec<u16>>(), 0);
    check_cost(planner, &plant, &book, 2, &[], 1024);
}

/// A plant of 1,024 states, each of which is in the one goal and stays there by the moves of its own: move 0, and every
/// third state move 1 too.
fn thirds() -> Vec<u8> {
    let stays = |state: u16| (0..if state % 3 == 0 { 2 } else { 1 }).map(move |action| [state, action, state]);
    let arrows = (0..1024).flat_map(stays).collect();
    Model { moves: 2, goals: 1, settles: false, labels: vec![3; 1024], arrows }.bytes()
}

/// The states of that plant, and its states that have one move alone.
fn all_and_others() -> [Vec<u16>; 2] {
    [(0..1024).collect(), (0..1024).filter(|state| state % 3 != 0).collect()]
}

/// Drop lists of that plant, by hand, in buffers that are just long enough, longer, and too short by one byte; and the
/// previews of them. Without move 0 the states with one move are dropped, without both all are, whichever goes first.
pub fn drop_lists(planner: &dyn Calls) {
    let plant = thirds();
    let mut book = vec![0; 16 + 4 * 1024];
    assert_eq!(planner.make(&plant, 3, &mut book).number, 0);
    let check_drops = |dropped: &[u16], withdraw: &dyn Fn(&mut [u8], &mut [u8]) -> Answer| {
        for length in [2048, 2051] {
            let (mut out, mut list) = (book.clone(), vec![0xa5; length]);
            let answer = withdraw(&mut out, &mut list);
            assert_eq!((answer.number, answer.drops as usize), (0, dropped.len()));
            assert_eq!(list, listed(dropped, length));
        }
    };
    let check_masks = |masks: &[u32], dropped: &[u16]| {
        let masks = mask_bytes(masks);
        check_drops(dropped, &|out, list| planner.withdraw_list(&plant, &book, &masks, out, list));
        check_withdraw_list(planner, &plant, &book, &masks, [book.len(), 2047], 7);
    };
    let check = |mask, dropped: &[u16]| {
        check_drops(dropped, &|out, list| planner.withdraw(&plant, &book, mask, out, list));
        check_withdraw(planner, &plant, &book, mask, [book.len(), 2047], 7);
        check_cost(planner, &plant, &book, mask, dropped, 1024 - dropped.len() as u32);
        check_masks(&[mask], dropped);
    };
    let [all, others] = all_and_others();
    check(0, &[]);
    check(1, &others);
    check(2, &[]);
    check(3, &all);
    check_masks(&[1, 2], &all);
    check_masks(&[2, 1], &all);
    check_masks(&[2, 0, 2], &[]);
}

/// Lists of states gained in that plant, by hand.
pub fn gained_lists(planner: &dyn Calls) {
    let plant = thirds();
    // A book that keeps some of the states, at wait 0 with one move.
    let book = |mask, action, kept: &[u16]| {
        let row = |state| if kept.contains(&state) { [0, action] } else { [LOST; 2] };
        let header = [1024, 2, 1, kept.len() as u16, mask, 0, 16, 4112];
        bytes_of(&header.into_iter().chain((0..1024).flat_map(row)).collect::<Vec<u16>>())
    };
    let [all, others] = all_and_others();
    let thirds: Vec<u16> = (0..1024).step_by(3).collect();
    let [none, first, both] = [book(0, 0, &[]), book(1, 0, &all), book(3, 0, &all)];
    let second = book(2, 1, &thirds);
    let check = |book: &[u8], mask, expected: &[u8], gained: &[u16]| {
        check_return(planner, &plant, book, mask, expected, gained)
    };
    check(&none, 0, &none, &[]);
    check(&none, 1, &first, &all);
    check(&none, 2, &second, &thirds);
    check(&none, 3, &both, &all);
    check(&first, 2, &both, &[]);
    check(&second, 1, &both, &others);
    check(&second, 2, &second, &[]);
    // Books that nobody made: one that has lost states though it need not, and one that keeps states it must not.
    check(&book(1, 0, &others), 2, &both, &thirds);
    check(&book(2, 1, &all), 0, &second, &[]);
    check(&book(2, 1, &others), 0, &second, &thirds);
}

/// The good moves for each state and goal in turn, as masks.
fn check_sets(planner: &dyn Calls, plant: &[u16], book: &[u8], expected: &[&[u32]]) {
    for (state, masks) in expected.iter().enumerate() {
        for (goal, &mask) in masks.iter().enumerate() {
            let found = planner.moves(&bytes_of(plant), book, state as u32, goal as u32);
            assert_eq!(found, Mask { number: 0, mask }, "state {state}, goal {goal} of {book:?}");
        }
    }
}

/// Every good move, by hand: the moves in service in the book whose arrows all end in states that it keeps and, above
/// wait 0, with smaller waits for the goal arrived at.
pub fn good_moves(planner: &dyn Calls) {
    // M1. State 0 passes goal 0: moves 0 and 1 lead to 1 and 2, whose waits for goal 1 are below 2. State 1: move 2 to
    // goal 0, move 0 to goal 1, move 1 to the lost state 3. State 2 passes goal 1: move 0 to goal 0, move 2 comes no
    // nearer.
    check_sets(planner, &P, &book_of_p(3, 7, M1_ROWS), &[&[3, 3], &[4, 1], &[1, 1], &[0, 0]]);

    // M2: move 2 is out of service, and state 1 is then at wait 2 for goal 0, with move 0 to state 2.
    let with = |changes: &[(usize, u16)]| {
        let mut rows = M1_ROWS;
        for &(at, number) in changes {
            rows[at] = number;
        }
        rows
    };
    check_sets(planner, &P, &book_of_p(3, 3, with(&[(4, 2), (5, 0)])), &[&[3, 3], &[1, 1], &[1, 1], &[0, 0]]);

    // M9's book, which nobody made: state 1 is lost, so state 0 has no good move though it is kept; state 2 has one.
    check_sets(planner, &P, &book_of_p(2, 7, M9_ROWS), &[&[0, 0], &[0, 0], &[1, 1], &[0, 0]]);

    // The row's wait counts and not the label. State 0 is in goal 0, but at wait 1 here, as are states 1 and 2: nowhere
    // is a way to goal 0, also not in state 2 when goal 1 is passed.
    check_sets(planner, &P, &book_of_p(3, 7, with(&[(0, 1)])), &[&[0, 3], &[0, 1], &[0, 0], &[0, 0]]);
    // State 1 is not in goal 0, but at wait 0 here: it passes goal 0, and state 2 comes nearer by both its moves.
    check_sets(planner, &P, &book_of_p(3, 7, with(&[(4, 0)])), &[&[3, 3], &[1, 1], &[5, 5], &[0, 0]]);

    // State 2 serves both goals, so that the one sought stays: both its moves will do, though move 2 leads away from
    // either goal. State 1 comes to goal 0 by move 0, too.
    check_sets(planner, &P, &book_of_p(3, 7, with(&[(8, 0)])), &[&[3, 3], &[5, 1], &[5, 5], &[0, 0]]);
    // Every kept state serves both: a move will do if it stays among kept states. Move 1 of state 1 leads to state 3.
    check_sets(planner, &P, &book_of_p(3, 7, ALL_SERVED_ROWS), &[&[3, 3], &[5, 5], &[5, 5], &[0, 0]]);
    // The same without state 1, to which both moves of state 0 may lead, and move 2 of state 2.
    let mut without = ALL_SERVED_ROWS;
    without[4..8].fill(LOST);
    check_sets(planner, &P, &book_of_p(2, 7, without), &[&[0, 0], &[0, 0], &[1, 1], &[0, 0]]);

    // A move may end in a state that the book keeps though the plant does not allow it; state 3 itself serves both
    // goals and has no arrow.
    check_sets(planner, &P, &book_of_p(4, 7, NOT_ALLOWED_ROWS), &[&[3, 3], &[6, 3], &[1, 1], &[0, 0]]);

    // M8's plant, with goal {1}: a move that may stay in state 0 comes no nearer, whatever else it may do.
    let may_stay = [2, 1, 1, 3, 16, 20, 38, 0, 1, 3, 0, 0, 0, 0, 0, 1, 1, 0, 1];
    check_sets(planner, &may_stay, &bytes_of(&[2, 1, 1, 2, 1, 0, 16, 24, 1, 0, 0, 0]), &[&[0], &[1]]);

    // No arrow at all: a book may keep the state, but there is no move to make.
    let no_arrow = [1, 1, 1, 0, 16, 18, 18, 0, 3];
    check_sets(planner, &no_arrow, &bytes_of(&[1, 1, 1, 1, 1, 0, 16, 20, 0, 0]), &[&[0]]);

    // The highest move of 32, beside all those that have no arrow.
    let highest = [1, 32, 1, 1, 16, 18, 24, 0, 3, 0, 31, 0];
    let all_in_service = bytes_of(&[1, 32, 1, 1, 0xffff, 0xffff, 16, 20, 0, 0]);
    check_sets(planner, &highest, &all_in_service, &[&[1 << 31]]);
}

/// A kept state's row: wait and move for each goal in turn.
type Row<'a> = &'a [[u16; 2]];

/// A plant in which the good moves show the goal arrived at, and a book with these rows, which nobody made, with all 32
/// moves in service. After the rows come for each goal a state that serves it alone, at wait 1,023 for the others, and
/// at the end a lost state. Move i leads to the state that serves goal i, move N to the lost one, and move N + 1 stays.
/// No state is in a goal: what is served is told by the rows.
fn signposts(goals: u16, rows: &[Row]) -> (Vec<u8>, Vec<u8>) {
    let (first, states) = (rows.len() as u16, rows.len() as u16 + goals + 1);
    let leads = |state| move |action: u16| [state, action, if action <= goals { first + action } else { state }];
    let arrows = (0..first).flat_map(|state| (0..goals + 2).map(leads(state))).collect();
    let plant = Model { moves: 32, goals, settles: false, labels: vec![1; states.into()], arrows }.bytes();

    let serves = |served| (0..goals).flat_map(move |goal| [if goal == served { 0 } else { 1023 }, 31]);
    let header = [states, 32, goals, states - 1, u16::MAX, u16::MAX, 16, 16 + 4 * states * goals];
    let numbers = header.into_iter().chain(rows.iter().flat_map(|row| row.iter().flatten().copied()));
    let numbers = numbers.chain((0..goals).flat_map(serves)).chain(vec![LOST; 2 * usize::from(goals)]);
    (plant, bytes_of(&numbers.collect::<Vec<u16>>()))
}

/// Rows of a book by [`signposts`], and what consult answers in each for every goal sought in turn: move, wait and
/// seek. At a wait from 1 to 1,022 the move with the number of the goal arrived at is the only good one; where all
/// goals are served, every move will do but the one to the lost state.
fn check_arrivals(planner: &dyn Calls, goals: u16, rows: &[(Row, Vec<[u32; 3]>)]) {
    let (plant, book) = signposts(goals, &rows.iter().map(|&(row, _)| row).collect::<Vec<Row>>());
    for (state, (row, answers)) in (0..).zip(rows) {
        assert_eq!(answers.len(), row.len(), "an answer for each goal");
        for (goal, &[action, wait, seek]) in (0..).zip(answers) {
            let mask = if wait == 0 { (1 << goals) - 1 + (2 << goals) } else { 1 << seek };
            let found = (planner.consult(&book, state, goal), planner.moves(&plant, &book, state, goal));
            let expected = (advice(action, wait, seek), Mask { number: 0, mask });
            assert_eq!(found, expected, "{row:?}, goal {goal} of {goals}");
        }
    }
}

/// Consult and the good moves where goals are passed, by hand: every served goal, that is, every goal at wait 0, from
/// the one sought on, after the last the first, until one that is not served. If all are served, the one sought stays.
pub fn arrivals(planner: &dyn Calls) {
    // One goal: it is always the one sought, served or not.
    check_arrivals(planner, 1, &[(&[[4, 2]], vec![[2, 4, 0]]), (&[[0, 3]], vec![[3, 0, 0]])]);

    check_arrivals(
        planner,
        2,
        &[
            (&[[3, 1], [2, 4]], vec![[1, 3, 0], [4, 2, 1]]), // none is served: nothing is passed
            (&[[0, 1], [2, 4]], vec![[4, 2, 1], [4, 2, 1]]), // 0 is passed
            (&[[3, 1], [0, 4]], vec![[1, 3, 0], [1, 3, 0]]), // 1 is passed, round the end
            (&[[0, 1], [0, 4]], vec![[1, 0, 0], [4, 0, 1]]), // all are served: each stays
        ],
    );

    check_arrivals(
        planner,
        3,
        &[
            (&[[5, 7], [6, 8], [1, 9]], vec![[7, 5, 0], [8, 6, 1], [9, 1, 2]]), // none is served
            (&[[0, 7], [4, 8], [2, 9]], vec![[8, 4, 1], [8, 4, 1], [9, 2, 2]]), // from 0 to 1
            (&[[3, 7], [0, 8], [1, 9]], vec![[7, 3, 0], [9, 1, 2], [9, 1, 2]]), // from 1 to 2
            (&[[8, 7], [1, 8], [0, 9]], vec![[7, 8, 0], [8, 1, 1], [7, 8, 0]]), // from 2 round the end to 0
            (&[[0, 7], [0, 8], [9, 9]], vec![[9, 9, 2], [9, 9, 2], [9, 9, 2]]), // from 0 over 1 to 2
            (&[[1022, 7], [0, 8], [0, 9]], vec![[7, 1022, 0], [7, 1022, 0], [7, 1022, 0]]), // from 1 over 2 to 0
            (&[[0, 7], [6, 8], [0, 9]], vec![[8, 6, 1], [8, 6, 1], [8, 6, 1]]), // from 2 over 0 to 1
            (&[[0, 7], [0, 8], [0, 9]], vec![[7, 0, 0], [8, 0, 1], [9, 0, 2]]), // all are served
        ],
    );

    eight_goals(planner);
}

/// Eight goals, goal i with move 10 + i.
fn eight_goals(planner: &dyn Calls) {
    let row = |waits: [u16; 8]| -> Vec<[u16; 2]> { waits.into_iter().zip(10..).map(<[u16; 2]>::from).collect() };
    let none = row([8, 7, 6, 5, 4, 3, 2, 1]);
    let all = row([0; 8]);
    // 2 and 5 are not served: 3 and 4 are passed on the way to 5, and 6, 7, 0 and 1 on the way to 2.
    let two = row([0, 0, 9, 0, 0, 6, 0, 0]);
    let [to_2, to_5] = [[12, 9, 2], [15, 6, 5]];
    // One alone is not served, at wait 20: every other is passed, seven of them if the next one is sought.
    let but = |left: usize| {
        let mut waits = [0; 8];
        waits[left] = 20;
        row(waits)
    };
    let all_but: Vec<Vec<[u16; 2]>> = (0..8).map(but).collect();

    let mut rows: Vec<(Row, Vec<[u32; 3]>)> = vec![
        (&none, (0..8).map(|goal| [10 + goal, 8 - goal, goal]).collect()),
        (&all, (0..8).map(|goal| [10 + goal, 0, goal]).collect()),
        (&two, vec![to_2, to_2, to_2, to_5, to_5, to_5, to_2, to_2]),
    ];
    rows.extend((0..8).zip(&all_but).map(|(left, row)| (&row[..], vec![[10 + left, 20, left]; 8])));
    check_arrivals(planner, 8, &rows);
}

/// The good moves in the longest plant and book, by hand: the last state has 7 moves with 1,023 arrows each and one
/// with 8, all to states in every goal, and each of those has a move to the next state.
pub fn good_moves_of_the_longest(planner: &dyn Calls) {
    let (plant, book) = longest(planner);
    for (state, mask) in [(1023, 0xff), (1022, 1), (0, 1)] {
        assert_eq!(planner.moves(&plant, &book, state, 7), Mask { number: 0, mask }, "state {state}");
    }
}

/// P's numbers with some changed: pairs of a place and a number.
fn changed(numbers: &[u16], changes: &[(usize, u16)]) -> Vec<u8> {
    let mut numbers = numbers.to_vec();
    for &(at, number) in changes {
        numbers[at] = number;
    }
    bytes_of(&numbers)
}

fn check_make(planner: &dyn Calls, plant: &[u8], mask: u32, length: usize, number: u32) {
    let what = || format!("make of {plant:?}");
    check_number([length, 0], number, &what, |book, _| planner.make(plant, mask, book));
}

fn check_withdraw(planner: &dyn Calls, plant: &[u8], book: &[u8], mask: u32, lengths: [usize; 2], number: u32) {
    let what = || format!("withdraw from {book:?}, plant {plant:?}");
    check_number(lengths, number, &what, |out, list| planner.withdraw(plant, book, mask, out, list));
}

fn check_withdraw_list(planner: &dyn Calls, plant: &[u8], book: &[u8], masks: &[u8], lengths: [usize; 2], number: u32) {
    let what = || format!("withdraw the list {masks:?} from {book:?}, plant {plant:?}");
    check_number(lengths, number, &what, |out, list| planner.withdraw_list(plant, book, masks, out, list));
}

fn check_return_number(planner: &dyn Calls, plant: &[u8], book: &[u8], mask: u32, lengths: [usize; 2], number: u32) {
    let what = || format!("return to {book:?}, plant {plant:?}");
    check_number(lengths, number, &what, |out, list| planner.return_moves(plant, book, mask, out, list));
}

/// A call that writes in buffers of these lengths: the number, and nothing counted or written if refused.
fn check_number(
    lengths: [usize; 2],
    number: u32,
    what: &dyn Fn() -> String,
    call: impl FnOnce(&mut [u8], &mut [u8]) -> Answer,
) {
    let [mut out, mut list] = lengths.map(|length| vec![0xa5; length]);
    let answer = call(&mut out, &mut list);
    assert_eq!(answer.number, number, "{}", what());
    if number != 0 {
        assert_eq!(answer, Answer::refused(number), "{}", what());
        assert!(out.iter().chain(&list).all(|&byte| byte == 0xa5), "a refusal writes nothing: {}", what());
    }
}

/// A preview with a drop buffer of this length: the number, and nothing counted or written if refused.
fn check_preview(planner: &dyn Calls, plant: &[u8], book: &[u8], mask: u32, length: usize, number: u32) {
    let mut list = vec![0xa5; length];
    let cost = planner.preview(plant, book, mask, &mut list);
    assert_eq!(cost.number, number, "preview, mask {mask:#x} of {book:?}, plant {plant:?}");
    if number != 0 {
        assert_eq!(cost, Cost::refused(number));
        assert!(list.iter().all(|&byte| byte == 0xa5), "a refusal writes nothing");
    }
}

/// Consult and row with this state and, for consult, goal. Row's number is that of consult with goal 0.
fn check_lookup(planner: &dyn Calls, book: &[u8], state: u32, goal: u32, number: u32) {
    let advice = planner.consult(book, state, goal);
    assert_eq!(advice.number, number, "consult state {state} goal {goal} of {book:?}");
    if number != 0 {
        assert_eq!(advice, Advice::refused(number));
    }
    let part = planner.row(book, state);
    assert_eq!(part.number, planner.consult(book, state, 0).number);
    assert_eq!(part.length == 0, part.number != 0, "empty exactly when refused");
}

/// Every good move, with this plant, book, state and goal: the number, and no move if refused.
fn check_moves(planner: &dyn Calls, plant: &[u8], book: &[u8], state: u32, goal: u32, number: u32) {
    let found = planner.moves(plant, book, state, goal);
    assert_eq!(found.number, number, "moves, state {state} goal {goal} of {book:?}, plant {plant:?}");
    if number != 0 {
        assert_eq!(found, Mask::refused(number));
    }
}

/// A plant of these counts with no arrow and every state allowed.
fn bare(states: u16, moves: u16, goals: u16) -> Vec<u8> {
    let length = 16 + 2 * states;
    let header = [states, moves, goals, 0, 16, length, length, 0];
    bytes_of(header.iter().chain(&vec![1; states.into()]))
}

/// One state with `count` arrows to other states by any move, in a plant of 300 states and 32 moves.
fn with_arrows(count: u16) -> Vec<u8> {
    let header = [300, 32, 1, count, 16, 616, 616 + 6 * count, 0];
    let arrows = (0..count).flat_map(|number| [0, number / 300, number % 300]);
    bytes_of(header.iter().chain(&vec![1; 300]).chain(&arrows.collect::<Vec<u16>>()))
}

/// All refusals, on both sides of each limit, with every call that gives them.
pub fn refusals(planner: &dyn Calls) {
    plant_headers(planner);
    labels_and_arrows(planner);
    book_headers(planner);
    book_rows(planner);
    masks_and_buffers(planner);
    lists_of_masks(planner);
    states_and_goals(planner);
    the_first_that_applies(planner);
}

/// The numbers of M1's book.
fn m1_numbers() -> Vec<u16> {
    [4, 3, 2, 3, 7, 0, 16, 48].into_iter().chain(M1_ROWS).collect()
}

/// The number for a plant, by every call that takes one.
fn check_plant(planner: &dyn Calls, plant: &[u8], number: u32) {
    check_make(planner, plant, 0, 1 << 15 | 16, number);
    if number != 0 {
        let book = bytes_of(&m1_numbers());
        check_withdraw(planner, plant, &book, 0, [48, 8], number);
        check_withdraw_list(planner, plant, &book, &[], [48, 8], number);
        check_return_number(planner, plant, &book, 0, [48, 8], number);
        check_preview(planner, plant, &book, 0, 8, number);
        check_moves(planner, plant, &book, 0, 0, number);
        index::check_plant(planner, plant, &book, number);
    }
}

/// The number for a book, by every call that takes one beside P.
fn check_book(planner: &dyn Calls, book: &[u8], number: u32) {
    check_book_of(planner, &bytes_of(&P), book, 4, number);
    check_moves(planner, &bytes_of(&P), book, 3, 1, number);
}

/// The number for a book, by every call that takes one beside a plant of at most four states that has these moves.
fn check_book_of(planner: &dyn Calls, plant: &[u8], book: &[u8], mask: u32, number: u32) {
    check_withdraw(planner, plant, book, mask, [48, 8], number);
    check_withdraw_list(planner, plant, book, &mask_bytes(&[mask, 1]), [48, 8], number);
    check_return_number(planner, plant, book, mask, [48, 8], number);
    check_preview(planner, plant, book, mask, 8, number);
    check_moves(planner, plant, book, 0, 0, number);
    index::check_book(planner, plant, book, mask, number);
}

/// 1: the plant's header and length.
fn plant_headers(planner: &dyn Calls) {
    let plant = bytes_of(&P);
    check_plant(planner, &plant[..15], 1);
    check_plant(planner, &[], 1);
    check_plant(planner, &plant[..71], 1);
    check_plant(planner, &[&plant[..], &[0]].concat(), 1);
    for (at, &number) in P[..8].iter().enumerate() {
        // 0 and 1 are right for the last number; U and N may be larger than the labels and arrows need.
        check_plant(planner, &changed(&P, &[(at, 0)]), if at == 7 { 0 } else { 1 });
        check_plant(planner, &changed(&P, &[(at, number + 1)]), if [1, 2, 7].contains(&at) { 0 } else { 1 });
    }
    for last in [2, 3, 256, 257, u16::MAX] {
        check_plant(planner, &changed(&P, &[(7, last)]), 1);
    }
    for (states, moves, goals) in [(1025, 32, 8), (1024, 33, 8), (1024, 32, 9), (0, 1, 1), (1, 0, 1), (1, 1, 0)] {
        check_plant(planner, &bare(states, moves, goals), 1);
    }
    for (states, moves, goals) in [(1024, 32, 8), (1, 1, 1)] {
        check_plant(planner, &bare(states, moves, goals), 0);
    }
    check_plant(planner, &with_arrows(8192), 0);
    check_plant(planner, &with_arrows(8193), 1);
}

/// 2 and 3: a label's bit above bit N; arrows out of range or order.
fn labels_and_arrows(planner: &dyn Calls) {
    check_plant(planner, &changed(&P, &[(8, 7)]), 0);
    check_plant(planner, &changed(&P, &[(8, 8)]), 2);
    check_plant(planner, &changed(&P, &[(11, 0x8000)]), 2);
    check_plant(planner, &changed(&P, &[(11, 6)]), 0); // goal bits of a state that is not allowed
    for (label, number) in [(0x1ff, 0), (0x200, 2)] {
        let mut plant = bare(1, 1, 8);
        plant[16..18].copy_from_slice(&u16::to_le_bytes(label));
        check_plant(planner, &plant, number);
    }

    // 3: arrows out of range or order.
    for (at, number) in [(33, 4), (34, 3), (35, 4), (35, u16::MAX)] {
        check_plant(planner, &changed(&P, &[(at, number)]), 3);
    }
    check_plant(planner, &changed(&P, &[(20, 1)]), 3); // (0,1,1) twice
    check_plant(planner, &changed(&P, &[(20, 3)]), 0); // (0,1,3) after (0,1,1)
    check_plant(planner, &changed(&P, &[(17, 3)]), 3); // (0,1,3) before (0,1,2)
    check_plant(planner, &changed(&P, &[(30, 0)]), 3); // (0,0,0) late
}

/// 4: the book's header and length, alone and beside the plant.
fn book_headers(planner: &dyn Calls) {
    let (book_numbers, book) = (m1_numbers(), bytes_of(&m1_numbers()));
    for short in [0, 15, 16, 47] {
        check_book(planner, &book[..short], 4);
        check_lookup(planner, &book[..short], 0, 0, 4);
    }
    check_book(planner, &[&book[..], &[0]].concat(), 4);
    for (at, number) in [
        (0, 3),
        (0, 0),
        (0, 1025),
        (1, 0),
        (1, 33),
        (2, 1),
        (2, 0),
        (4, 15),
        (5, 1),
        (6, 15),
        (6, 18),
        (7, 47),
        (7, 49),
    ] {
        let book = changed(&book_numbers, &[(at, number)]);
        check_book(planner, &book, 4);
        check_lookup(planner, &book, 0, 0, 4);
    }
    let four_moves = changed(&book_numbers, &[(1, 4)]);
    check_book(planner, &four_moves, 4);
    check_lookup(planner, &four_moves, 0, 0, 0);
    let row_as_well = changed(&book_numbers, &[(1, 4), (8, 1024)]);
    check_book(planner, &row_as_well, 4);
    check_lookup(planner, &row_as_well, 0, 0, 5);
}

/// 5: rows and their count.
fn book_rows(planner: &dyn Calls) {
    let book_numbers = m1_numbers();
    for changes in [
        vec![(8, 1024)],
        vec![(8, LOST)],
        vec![(9, 3)],
        vec![(9, 32)],
        vec![(9, LOST)],
        vec![(8, LOST), (9, LOST)],
        vec![(20, 0)],
        vec![(3, 2)],
        vec![(3, 4)],
        vec![(4, 3)], // move 2 is listed and not in the mask
        vec![(20, 0), (21, 0), (22, 0), (23, 0)],
    ] {
        let book = changed(&book_numbers, &changes);
        check_book(planner, &book, 5);
        check_lookup(planner, &book, 3, 1, 5);
    }
    check_book(planner, &changed(&book_numbers, &[(8, 1023)]), 0);
    check_book(planner, &changed(&book_numbers, &[(20, 0), (21, 0), (22, 0), (23, 0), (3, 4)]), 0);
}

/// 6 and 7: the mask given, and the buffers.
fn masks_and_buffers(planner: &dyn Calls) {
    let (plant, book) = (bytes_of(&P), bytes_of(&m1_numbers()));
    for (mask, number) in [(7, 0), (8, 6), (15, 6), (1 << 31, 6), (0, 0)] {
        check_make(planner, &plant, mask, 48, number);
        check_withdraw(planner, &plant, &book, mask, [48, 8], number);
        check_return_number(planner, &plant, &book, mask, [48, 8], number);
        check_preview(planner, &plant, &book, mask, 8, number);
    }
    check_make(planner, &bare(1, 32, 1), u32::MAX, 20, 0);
    check_make(planner, &bare(1, 31, 1), u32::MAX, 20, 6);
    for (moves, number) in [(32, 0), (31, 6)] {
        let lost = bytes_of(&[1, moves, 1, 0, 0, 0, 16, 20, LOST, LOST]);
        check_preview(planner, &bare(1, moves, 1), &lost, u32::MAX, 2, number);
        check_return_number(planner, &bare(1, moves, 1), &lost, u32::MAX, [20, 2], number);
    }

    // 7: the buffers.
    for (length, number) in [(48, 0), (47, 7), (0, 7), (49, 0)] {
        check_make(planner, &plant, 7, length, number);
        check_withdraw(planner, &plant, &book, 0, [length, 8], number);
        check_return_number(planner, &plant, &book, 0, [length, 8], number);
    }
    for (length, number) in [(8, 0), (7, 7), (0, 7), (9, 0)] {
        check_withdraw(planner, &plant, &book, 0, [48, length], number);
        check_return_number(planner, &plant, &book, 0, [48, length], number);
        check_preview(planner, &plant, &book, 0, length, number);
    }
}

/// 9, 6 and 7 of a list of masks: its length, its masks, and the buffers.
fn lists_of_masks(planner: &dyn Calls) {
    let (plant, book) = (bytes_of(&P), bytes_of(&m1_numbers()));
    let check = |masks: &[u8], lengths, number| check_withdraw_list(planner, &plant, &book, masks, lengths, number);
    // 9: a length that is not a multiple of 4, or above 64; whatever the bytes are.
    for length in 0..=72 {
        let whole = [0, 4, 8, 12, 16, 20, 24, 28, 32, 36, 40, 44, 48, 52, 56, 60, 64].contains(&length);
        check(&vec![0; length], [48, 8], if whole { 0 } else { 9 });
        let bad = if length == 0 { 0 } else { 6 };
        check(&vec![0xff; length], [48, 8], if whole { bad } else { 9 });
    }

    // 6: a mask with a bit at U or above, in any place.
    for (masks, number) in [
        (&[7, 7][..], 0),
        (&[8], 6),
        (&[1, 8], 6),
        (&[8, 1], 6),
        (&[7, 15, 7], 6),
        (&[0, 1 << 31], 6),
        (&[1 << 3, 1 << 4], 6),
    ] {
        check(&mask_bytes(masks), [48, 8], number);
    }
    for at in 0..16 {
        let mut masks = [7; 16];
        masks[at] = 8;
        check(&mask_bytes(&masks), [48, 8], 6);
    }
    for (moves, number) in [(32, 0), (31, 6)] {
        let lost = bytes_of(&[1, moves, 1, 0, 0, 0, 16, 20, LOST, LOST]);
        let masks = mask_bytes(&[0, u32::MAX]);
        check_withdraw_list(planner, &bare(1, moves, 1), &lost, &masks, [20, 2], number);
    }

    // 7: the buffers, just long enough and one byte short, also for an empty list.
    for masks in [&[2, 4][..], &[]] {
        for (lengths, number) in [([48, 8], 0), ([49, 9], 0), ([47, 8], 7), ([48, 7], 7), ([0, 8], 7), ([48, 0], 7)] {
            check(&mask_bytes(masks), lengths, number);
        }
    }
}

/// 8: the state and the goal asked for.
fn states_and_goals(planner: &dyn Calls) {
    let (plant, book) = (bytes_of(&P), bytes_of(&m1_numbers()));
    for (state, goal, number) in [(3, 1, 0), (4, 1, 8), (3, 2, 8), (u32::MAX, 0, 8), (0, u32::MAX, 8), (65536, 0, 8)] {
        check_lookup(planner, &book, state, goal, number);
        check_moves(planner, &plant, &book, state, goal, number);
    }
}

/// Each fault added to all those after it. In a list of masks 9 comes straight before 6.
fn the_first_that_applies(planner: &dyn Calls) {
    let (plant, book) = (bytes_of(&P), bytes_of(&m1_numbers()));
    let mut faulty_plant = P.to_vec();
    let mut faulty_book = m1_numbers();
    // With a mask that is bad, in lists that are whole, cut and too long, and buffers that are too short.
    let check = |plant: &[u8], book: &[u8], number, length_number| {
        check_withdraw(planner, plant, book, 8, [47, 8], number);
        for lengths in [[47, 8], [48, 7], [47, 7]] {
            check_return_number(planner, plant, book, 8, lengths, number);
        }
        check_preview(planner, plant, book, 8, 7, number);
        check_withdraw_list(planner, plant, book, &mask_bytes(&[4, 8]), [47, 7], number);
        for masks in [&[0xff; 3][..], &[0xff; 5], &[0xff; 65], &[0xff; 68], &[0; 68]] {
            check_withdraw_list(planner, plant, book, masks, [47, 7], length_number);
        }
    };
    check(&plant, &book, 6, 9);
    faulty_book[8] = 1024;
    check(&plant, &bytes_of(&faulty_book), 5, 5);
    check_moves(planner, &plant, &bytes_of(&faulty_book), 4, 2, 5);
    check_lookup(planner, &bytes_of(&faulty_book), 4, 2, 5);
    check_moves(planner, &bare(2, 1, 1), &bytes_of(&faulty_book), 4, 2, 4);
    faulty_book[6] = 15;
    check(&plant, &bytes_of(&faulty_book), 4, 4);
    check_moves(planner, &plant, &bytes_of(&faulty_book), 4, 2, 4);
    check_lookup(planner, &bytes_of(&faulty_book), 4, 2, 4);
    for (at, number, refusal) in [(33, 4, 3), (8, 8, 2), (7, 2, 1)] {
        faulty_plant[at] = number;
        check(&bytes_of(&faulty_plant), &bytes_of(&faulty_book), refusal, refusal);
        check_moves(planner, &bytes_of(&faulty_plant), &bytes_of(&faulty_book), 4, 2, refusal);
        check_make(planner, &bytes_of(&faulty_plant), 8, 47, refusal);
    }
}
