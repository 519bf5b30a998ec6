//! Plants that must settle, by hand, from request (ix) of document 02: stages, waits and moves, what consult and the good
//! moves say, books that nobody made, the sorts of books, and what is refused.

use super::{advice, changed, check_book_of, check_cost, check_lookup, check_make, check_moves, check_return};
use super::{check_sets, check_written, LOST};
use planbook::calls::{mask_bytes, Calls};
use planbook::plants::{self, bytes_of};
use planbook::sys::{Answer, Part};

/// The numbers of a plant that must settle, or need not: U, N, labels and arrows.
fn plant(moves: u16, goals: u16, last: u16, labels: &[u16], arrows: &[[u16; 3]]) -> Vec<u16> {
    let (states, count) = (labels.len() as u16, arrows.len() as u16);
    let header = [states, moves, goals, count, 16, 16 + 2 * states, 16 + 2 * states + 6 * count, last];
    header.iter().chain(labels).chain(arrows.iter().flatten()).copied().collect()
}

/// The numbers of a book with stages: rows of the stage, and wait and move for each goal.
fn book(moves: u16, goals: u16, mask: u16, rows: &[&[u16]]) -> Vec<u16> {
    let states = rows.len() as u16;
    let kept = rows.iter().filter(|row| row[0] != LOST).count() as u16;
    let header = [states, moves, goals, kept, mask, 0, 16, 16 + 2 * states + 4 * states * goals];
    header.into_iter().chain(rows.concat()).collect()
}

/// A lost row with one goal.
const GONE: &[u16] = &[LOST; 3];

/// Two settled states and a third, beside one that is not settled and is in the goal: state 0 has a way to the goal over
/// state 1, which leaves the settled states, and a longer one over state 2, which does not.
fn two_ways() -> Vec<u16> {
    plant(2, 1, 1, &[513, 3, 513, 515], &[[0, 0, 1], [0, 1, 2], [1, 0, 3], [2, 0, 3], [3, 0, 3]])
}

/// Its rows with both moves, and with move 1 withdrawn: state 0 then has a later stage, and a smaller wait.
const BOTH_WAYS: [&[u16]; 4] = [&[1, 2, 1], &[2, 0, 0], &[1, 1, 0], &[1, 0, 0]];
const ONE_WAY: [&[u16]; 4] = [&[2, 1, 0], &[2, 0, 0], &[1, 1, 0], &[1, 0, 0]];

/// The numbers of the plant with two stages and two goals, and its rows.
fn band() -> Vec<u16> {
    plant(2, 2, 1, &[515, 1, 519], &[[0, 0, 0], [0, 1, 1], [1, 0, 2], [1, 1, 0], [2, 0, 2]])
}
const BAND: [&[u16]; 3] = [&[2, 0, 0, 1, 1], &[2, 0, 0, 0, 0], &[1, 0, 0, 0, 0]];

fn check_made(planner: &dyn Calls, plant: &[u16], mask: u32, expected: &[u16]) {
    let expected = bytes_of(expected);
    let mut book = vec![0xa5; expected.len()];
    let answer = planner.make(&bytes_of(plant), mask, &mut book);
    assert_eq!(answer, Answer { number: 0, length: expected.len() as u32, drops: 0 });
    assert_eq!(book, expected, "the book of {plant:?}");
}

/// Stages, waits and moves.
pub fn rows(planner: &dyn Calls) {
    // State 0 may stay in the goal by move 0, but is not settled, and leaves by move 1.
    let stay_or_leave = plant(2, 1, 1, &[3, 515], &[[0, 0, 0], [0, 1, 1], [1, 0, 1]]);
    check_made(planner, &stay_or_leave, 3, &book(2, 1, 3, &[&[2, 0, 1], &[1, 0, 0]]));
    // To be settled again and again is not enough.
    let now_and_then = plant(1, 1, 1, &[515, 1], &[[0, 0, 0], [0, 0, 1], [1, 0, 0]]);
    check_made(planner, &now_and_then, 1, &book(1, 1, 1, &[GONE, GONE]));
    // Three stages; the goal is met at the end alone.
    let three = plant(1, 1, 1, &[1, 1, 515], &[[0, 0, 1], [1, 0, 2], [2, 0, 2]]);
    check_made(planner, &three, 1, &book(1, 1, 1, &[&[3, 0, 0], &[2, 0, 0], &[1, 0, 0]]));
    check_made(planner, &two_ways(), 3, &book(2, 1, 3, &BOTH_WAYS));
    check_made(planner, &two_ways(), 1, &book(2, 1, 1, &ONE_WAY));
    // A wait ends in a state of the own stage that can leave, too.
    let fork = plant(2, 1, 1, &[513, 1, 515], &[[0, 0, 0], [0, 1, 1], [0, 1, 2], [1, 0, 2], [2, 0, 2]]);
    check_made(planner, &fork, 3, &book(2, 1, 3, &[&[2, 1, 1], &[2, 0, 0], &[1, 0, 0]]));
    check_made(planner, &band(), 3, &book(2, 2, 3, &BAND));
    // Bit 9 of a state that is not allowed has no effect, and without settling the one state would be kept.
    for (label, row) in [(512, GONE), (514, GONE), (3, GONE), (515, &[1, 0, 0])] {
        check_made(planner, &plant(1, 1, 1, &[label], &[[0, 0, 0]]), 1, &book(1, 1, 1, &[row]));
    }
}

/// Chains in which each state leads to the next and the last one stays: none settled but the last, so that there are as
/// many stages as states, and all settled, as long as a book can be.
pub fn chains(planner: &dyn Calls) {
    let arrows: Vec<[u16; 3]> = (0..1024).map(|state| [state, 0, 1023.min(state + 1)]).collect();
    let mut labels = vec![1; 1024];
    labels[1023] = 515;
    let rows: Vec<[u16; 3]> = (0..1024).map(|state| [1024 - state, 0, 0]).collect();
    let rows: Vec<&[u16]> = rows.iter().map(|row| &row[..]).collect();
    check_made(planner, &plant(1, 1, 1, &labels, &arrows), 1, &book(1, 1, 1, &rows));

    let labels = vec![1 | 512; 1023].into_iter().chain([1023]).collect::<Vec<u16>>();
    let row = |state: u16| [vec![1], [1023 - state, 0].repeat(8)].concat();
    let rows: Vec<Vec<u16>> = (0..1024).map(row).collect();
    let rows: Vec<&[u16]> = rows.iter().map(|row| &row[..]).collect();
    let longest = book(1, 8, 1, &rows);
    assert_eq!(2 * longest.len(), 34_832);
    check_made(planner, &plant(1, 8, 1, &labels, &arrows), 1, &longest);
}

/// Withdrawals, lists of them, returns and previews.
pub fn withdrawals(planner: &dyn Calls) {
    let plant = bytes_of(&two_ways());
    let [both, one, none] =
        [(3, BOTH_WAYS), (1, ONE_WAY), (2, [GONE; 4])].map(|(mask, rows)| bytes_of(&book(2, 1, mask, &rows)));
    check_written(&one, &[], |out, list| planner.withdraw(&plant, &both, 2, out, list));
    check_written(&none, &[0, 1, 2, 3], |out, list| planner.withdraw(&plant, &both, 1, out, list));
    check_cost(planner, &plant, &both, 2, &[], 4);
    check_cost(planner, &plant, &both, 1, &[0, 1, 2, 3], 0);
    check_return(planner, &plant, &one, 2, &both, &[]);
    check_return(planner, &plant, &none, 1, &both, &[0, 1, 2, 3]);
    let masks = mask_bytes(&[0, 2]);
    check_written(&one, &[], |out, list| planner.withdraw_list(&plant, &both, &masks, out, list));

    // Old stages and waits have no part, whichever they are.
    for [a, b] in [[1, 1], [4, 3], [3, 4], [2, 1]] {
        let rows: [&[u16]; 4] = [&[a, 7, 0], &[b, 9, 1], &[a, 0, 1], &[b, 1023, 0]];
        let old = bytes_of(&book(2, 1, 3, &rows));
        check_written(&both, &[], |out, list| planner.withdraw(&plant, &old, 0, out, list));
        check_written(&one, &[], |out, list| planner.withdraw(&plant, &old, 2, out, list));
        check_return(planner, &plant, &old, 0, &both, &[]);
    }
    // A state that the old book has lost is not passed: state 0 has its way over state 1 then, and none without both.
    let without = |lost: &[usize]| -> [&[u16]; 4] {
        std::array::from_fn(|state| if lost.contains(&state) { GONE } else { ONE_WAY[state] })
    };
    let [no_2, no_1_2] = [without(&[2]), without(&[1, 2])].map(|rows| bytes_of(&book(2, 1, 3, &rows)));
    check_written(&no_2, &[], |out, list| planner.withdraw(&plant, &no_2, 0, out, list));
    let last = bytes_of(&book(2, 1, 3, &without(&[0, 1, 2])));
    check_written(&last, &[0], |out, list| planner.withdraw(&plant, &no_1_2, 0, out, list));
    check_return(planner, &plant, &no_1_2, 0, &both, &[1, 2]);
}

/// Consult, rows and good moves, in books that were made and in those that nobody made.
pub fn lookups(planner: &dyn Calls) {
    let made = bytes_of(&book(2, 2, 3, &BAND));
    // State 0 passes goal 0; state 1 leaves by move 0 and no other, whichever goal is sought.
    for (state, goal, expected) in [
        (0, 0, advice(1, 1, 1)),
        (0, 1, advice(1, 1, 1)),
        (1, 0, advice(0, 0, 0)),
        (1, 1, advice(0, 0, 1)),
        (2, 0, advice(0, 0, 0)),
        (2, 1, advice(0, 0, 1)),
    ] {
        assert_eq!(planner.consult(&made, state, goal), expected, "state {state}, goal {goal}");
    }
    for (state, start) in [(0, 16), (1, 26), (2, 36)] {
        assert_eq!(planner.row(&made, state), Part { number: 0, start, length: 10 });
    }
    let check = |rows: [&[u16]; 3], expected: &[&[u32]]| {
        check_sets(planner, &band(), &bytes_of(&book(2, 2, 3, &rows)), expected);
    };
    check(BAND, &[&[2, 2], &[1, 1], &[1, 1]]);
    let [zero, one, two] = BAND;
    // All of one stage: state 1, which serves both goals, may go to either of the others.
    check([&[1, 0, 0, 1, 1], &[1, 0, 0, 0, 0], two], &[&[2, 2], &[3, 3], &[1, 1]]);
    // State 2 of a later stage, or lost: state 1 goes back to state 0.
    check([zero, one, &[3, 0, 0, 0, 0]], &[&[2, 2], &[2, 2], &[1, 1]]);
    check([zero, one, &[LOST; 5]], &[&[2, 2], &[2, 2], &[0, 0]]);
    // State 0 of an earlier stage: both moves of state 1 leave. State 1 of a later stage: no way to goal 1.
    check([&[1, 0, 0, 1, 1], one, two], &[&[0, 0], &[3, 3], &[1, 1]]);
    // State 1 above wait 0 leaves all the same; with no earlier stage beside it, it goes where the wait is smaller.
    check([zero, &[2, 5, 0, 5, 0], two], &[&[0, 0], &[1, 1], &[1, 1]]);
    check([zero, &[1, 5, 0, 5, 0], two], &[&[2, 2], &[1, 1], &[1, 1]]);
    // A smaller wait in a later stage is of no use, and an earlier stage is, with any wait.
    check([&[1, 0, 0, 1, 1], &[2, 0, 0, 0, 0], &[3, 0, 0, 0, 0]], &[&[0, 0], &[2, 2], &[1, 1]]);
    check([&[3, 4, 0, 4, 0], &[2, 9, 0, 9, 0], two], &[&[2, 2], &[1, 1], &[1, 1]]);

    // Where stages are equal or no earlier one is reached wholly, the wait counts: a move that may lead to an earlier
    // stage or to the own one at a smaller wait.
    let fork = plant(2, 1, 1, &[513, 1, 515], &[[0, 0, 0], [0, 1, 1], [0, 1, 2], [1, 0, 2], [2, 0, 2]]);
    for (wait, set) in [(0, 3), (1, 2), (2, 2)] {
        let rows: [&[u16]; 3] = [&[2, wait, 1], &[2, 0, 0], &[1, 0, 0]];
        check_sets(planner, &fork, &bytes_of(&book(2, 1, 3, &rows)), &[&[set], &[1], &[1]]);
    }
    let rows: [&[u16]; 3] = [&[2, 1, 1], &[2, 1, 0], &[1, 0, 0]];
    check_sets(planner, &fork, &bytes_of(&book(2, 1, 3, &rows)), &[&[0], &[1], &[1]]);
}

/// What is refused: labels, the last header number, rows with stages, the sort of a book, and buffers.
pub fn refusals(planner: &dyn Calls) {
    for (label, numbers) in [(515, [2, 0]), (259, [2, 2]), (1539, [2, 2]), (3, [0, 0]), (512, [2, 0]), (517, [2, 2])] {
        for (last, number) in (0..).zip(numbers) {
            check_make(planner, &bytes_of(&plant(1, 1, last, &[label], &[[0, 0, 0]])), 1, 22, number);
        }
    }
    for (last, number) in [(2, 1), (257, 1), (u16::MAX, 1)] {
        check_make(planner, &bytes_of(&plant(1, 1, last, &[515], &[[0, 0, 0]])), 1, 22, number);
    }
    for (label, number) in [(0x3ff, 0), (0x7ff, 2), (0xbff, 2), (0x83ff, 2)] {
        check_make(planner, &bytes_of(&plant(1, 8, 1, &[label], &[[0, 0, 0]])), 1, 50, number);
    }

    // One state: its row opens with 1, or is wholly lost.
    let one = bytes_of(&plant(1, 1, 1, &[515], &[[0, 0, 0]]));
    for (row, number) in [
        ([1, 0, 0], 0),
        ([LOST; 3], 0),
        ([0, 0, 0], 5),
        ([2, 0, 0], 5),
        ([LOST, 0, 0], 5),
        ([1, LOST, LOST], 5),
        ([0, LOST, LOST], 5),
        ([1, LOST, 0], 5),
        ([1, 1024, 0], 5),
        ([1, 0, 1], 5),
        ([256, 0, 0], 5),
    ] {
        let book = bytes_of(&book(1, 1, 1, &[&row]));
        check_book_of(planner, &one, &book, 1, number);
        check_lookup(planner, &book, 0, 0, number);
    }
    // Up to the number of states.
    for (stage, number) in [(0, 5), (1, 0), (2, 0), (3, 0), (4, 5), (LOST - 1, 5)] {
        let rows: [&[u16]; 3] = [BAND[0], BAND[1], &[stage, 0, 0, 0, 0]];
        check_book_of(planner, &bytes_of(&band()), &bytes_of(&book(2, 2, 3, &rows)), 3, number);
    }
    sorts(planner);
    buffers(planner);
}

/// A book is of the sort of the plant, as its length says; consult and row take both sorts.
fn sorts(planner: &dyn Calls) {
    let plain_plant = bytes_of(&plant(1, 1, 0, &[3], &[[0, 0, 0]]));
    let settled_plant = bytes_of(&plant(1, 1, 1, &[515], &[[0, 0, 0]]));
    let plain_book = [1, 1, 1, 1, 1, 0, 16, 20, 0, 0];
    let settled_book = [1, 1, 1, 1, 1, 0, 16, 22, 1, 0, 0];
    for (plant, book, number) in [
        (&plain_plant, &plain_book[..], 0),
        (&plain_plant, &settled_book, 4),
        (&settled_plant, &plain_book, 4),
        (&settled_plant, &settled_book, 0),
    ] {
        check_book_of(planner, plant, &bytes_of(book), 1, number);
    }
    check_lookup(planner, &bytes_of(&plain_book), 0, 0, 0);
    check_lookup(planner, &bytes_of(&settled_book), 0, 0, 0);
    // The header's length and the bytes lent must be the same, and one of the two.
    for length in [18, 19, 20, 21, 22, 23, 24] {
        let books = [bytes_of(&plain_book), bytes_of(&settled_book)];
        for (book, right) in books.into_iter().zip([20, 22]) {
            let mut book = book;
            book[14] = length;
            let number = if length == right { 0 } else { 4 };
            check_lookup(planner, &book, 0, 0, number);
        }
    }
    // With wait 0 and a move in service in the place of the stage and the first wait, the sort tells what is refused.
    check_lookup(planner, &changed(&settled_book, &[(8, 0)]), 0, 0, 5);
}

/// Buffers as long as the longer book, and one byte less; preview needs none for a book.
fn buffers(planner: &dyn Calls) {
    let (plant, book) = (bytes_of(&band()), bytes_of(&book(2, 2, 3, &BAND)));
    assert_eq!(book.len(), 46);
    for (length, number) in [(40, 7), (44, 7), (45, 7), (46, 0), (47, 0)] {
        check_make(planner, &plant, 3, length, number);
        super::check_withdraw(planner, &plant, &book, 0, [length, 6], number);
        super::check_withdraw_list(planner, &plant, &book, &[], [length, 6], number);
        super::check_return_number(planner, &plant, &book, 0, [length, 6], number);
    }
    for (length, number) in [(5, 7), (6, 0)] {
        super::check_withdraw(planner, &plant, &book, 0, [46, length], number);
        super::check_preview(planner, &plant, &book, 0, length, number);
    }
    check_moves(planner, &plant, &book, 3, 0, 8);
    check_moves(planner, &plant, &book, 0, 2, 8);
    let longest = plants::longest().settled(|_| true).bytes();
    check_make(planner, &longest, u32::MAX, 34_831, 7);
    check_make(planner, &longest, u32::MAX, 34_832, 0);
}
