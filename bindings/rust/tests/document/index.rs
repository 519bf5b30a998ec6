//! Indexes, by hand, from request (viii) of document 02: their bytes, the marked examples made and withdrawn by them,
//! and what is refused.

use super::{bare, book_of_p, changed, check_number, check_written, m1_numbers, with_arrows};
use super::{LOST, M1_ROWS, M9_ROWS, P, ROUND_ROWS};
use planbook::calls::Calls;
use planbook::plants::{self, bytes_of};
use planbook::sys::{Answer, LONGEST_INDEX};

/// P's index. Arrows 5 and 6 end in state 0, 0, 1 and 7 in state 1, 2 and 3 in state 2, and 4 in state 3.
const P_INDEX: [u16; 12] = [4, 8, 8, 24, /**/ 5, 6, /**/ 0, 1, 7, /**/ 2, 3, /**/ 4];

/// What a planner builds for a plant that it accepts.
fn built(planner: &dyn Calls, plant: &[u8]) -> Vec<u8> {
    let mut index = vec![0xa5; LONGEST_INDEX];
    let answer = planner.index(plant, &mut index);
    assert_eq!((answer.number, answer.drops), (0, 0));
    index.truncate(answer.length as usize);
    index
}

/// The building of an index in a buffer that is just long enough, in longer ones, whose bytes past it stay, and in one
/// that is short by a byte.
fn check_index(planner: &dyn Calls, plant: &[u8], expected: &[u16]) {
    let expected = bytes_of(expected);
    for more in [0, 1, 9] {
        let mut index = vec![0xa5; expected.len() + more];
        let answer = planner.index(plant, &mut index);
        assert_eq!(answer, Answer { number: 0, length: expected.len() as u32, drops: 0 });
        assert_eq!(index, [&expected[..], &vec![0xa5; more]].concat(), "the index of {plant:?}");
    }
    for short in [expected.len() - 1, 8, 7, 0] {
        if short < expected.len() {
            check_index_number(planner, plant, short, 7);
        }
    }
}

fn check_index_number(planner: &dyn Calls, plant: &[u8], length: usize, number: u32) {
    check_number([length, 0], number, &|| format!("index of {plant:?}"), |index, _| planner.index(plant, index));
}

fn check_make(planner: &dyn Calls, plant: &[u8], index: &[u8], mask: u32, length: usize, number: u32) {
    let what = || format!("make by {index:?}, plant {plant:?}");
    check_number([length, 0], number, &what, |book, _| planner.make_indexed(plant, index, mask, book));
}

fn check_withdraw(
    planner: &dyn Calls,
    plant: &[u8],
    index: &[u8],
    book: &[u8],
    mask: u32,
    lengths: [usize; 2],
    number: u32,
) {
    let what = || format!("withdraw by {index:?} from {book:?}, plant {plant:?}");
    check_number(lengths, number, &what, |out, list| planner.withdraw_indexed(plant, index, book, mask, out, list));
}

/// The number for a plant that is refused, in the three calls, whatever the index is.
pub fn check_plant(planner: &dyn Calls, plant: &[u8], book: &[u8], number: u32) {
    check_index_number(planner, plant, LONGEST_INDEX, number);
    check_index_number(planner, plant, 0, number);
    for index in [&bytes_of(&P_INDEX)[..], &[]] {
        check_make(planner, plant, index, 0, 48, number);
        check_withdraw(planner, plant, index, book, 0, [48, 8], number);
    }
}

/// The number for a book of a plant of at most four states that has these moves: by the index, and 10 by any other.
pub fn check_book(planner: &dyn Calls, plant: &[u8], book: &[u8], mask: u32, number: u32) {
    let index = built(planner, plant);
    check_withdraw(planner, plant, &index, book, mask, [48, 8], number);
    check_withdraw(planner, plant, &index[1..], book, mask, [48, 8], 10);
}

/// Indexes by hand.
pub fn indexes(planner: &dyn Calls) {
    check_index(planner, &bytes_of(&P), &P_INDEX);
    // No arrow: a header alone, which tells the number of states.
    for states in [1, 2, 256, 1024] {
        check_index(planner, &bare(states, 1, 1), &[states, 0, 8, 8]);
    }
    // Labels, moves and the last header number have no part in it.
    check_index(planner, &changed(&P, &[(8, 0), (9, 7), (7, 1)]), &P_INDEX);
    check_index(planner, &changed(&P, &[(1, 32), (34, 31)]), &P_INDEX);
    // Another end of arrow 3, (1,0,2): state 0, so that it comes before 5 and 6; or state 3, before 4.
    check_index(planner, &changed(&P, &[(23, 0)]), &[4, 8, 8, 24, /**/ 3, 5, 6, /**/ 0, 1, 7, /**/ 2, /**/ 4]);
    check_index(planner, &changed(&P, &[(23, 3)]), &[4, 8, 8, 24, /**/ 5, 6, /**/ 0, 1, 7, /**/ 2, /**/ 3, 4]);
    check_index(planner, &plants::band().bytes(), &[3, 5, 8, 18, /**/ 0, 3, /**/ 1, /**/ 2, 4]);

    // As many arrows as there may be, by moves 0 to 27 of state 0, one after another to states 0 to 299: those into one
    // state are 300 apart.
    let mut expected = vec![300, 8192, 8, 16_392];
    expected.extend((0..300).flat_map(|end| (end..8192).step_by(300)));
    check_index(planner, &with_arrows(8192), &expected);
    // All into one state, and each into its own.
    let arrows = |end: fn(u16) -> u16| (0..32).flat_map(|action| [0, action, end(action)]).collect::<Vec<u16>>();
    for end in [|_| 7, |action| action, |action| 31 - action] as [fn(u16) -> u16; 3] {
        let header = [32, 32, 1, 32, 16, 80, 272, 0];
        let plant = bytes_of(header.iter().chain(&[1; 32]).chain(&arrows(end)));
        let down = end(0) == 31;
        let order = (0..32).map(|arrow| if down { 31 - arrow } else { arrow });
        check_index(planner, &plant, &[32, 32, 8, 72].into_iter().chain(order).collect::<Vec<u16>>());
    }
}

/// The marked examples of P by its index, in buffers that are longer than is needed.
pub fn books_by_index(planner: &dyn Calls) {
    let (plant, index) = (bytes_of(&P), bytes_of(&P_INDEX));
    let lost = |mask| book_of_p(0, mask, [LOST; 16]);
    let [m1, without_move_1] = [7, 5].map(|mask| book_of_p(3, mask, M1_ROWS));
    for (mask, expected) in [
        (7, m1.clone()),
        (5, without_move_1.clone()),
        (3, book_of_p(3, 3, ROUND_ROWS)),
        (1, book_of_p(3, 1, ROUND_ROWS)),
        (6, lost(6)),
        (0, lost(0)),
    ] {
        check_written(&expected, &[], |book, _| planner.make_indexed(&plant, &index, mask, book));
    }
    let check = |book: &[u8], mask, expected: &[u8], dropped: &[u16]| {
        check_written(expected, dropped, |out, list| planner.withdraw_indexed(&plant, &index, book, mask, out, list));
    };
    check(&m1, 4, &book_of_p(3, 3, ROUND_ROWS), &[]); // M2
    check(&m1, 1, &lost(6), &[0, 1, 2]); // M3
    check(&m1, 2, &without_move_1, &[]); // M4
    check(&m1, 0, &m1, &[]);
    check(&book_of_p(2, 7, M9_ROWS), 0, &lost(7), &[0, 2]); // M9

    // The chain in which every state is in the goal and leads to the next, and the last leads nowhere: all are lost.
    let chain = plants::Family::DeadEnd.build(1024, 1);
    let mut book = vec![0xa5; chain.book_length()];
    let answer = planner.make_indexed(&chain.bytes(), &built(planner, &chain.bytes()), 1, &mut book);
    assert_eq!((answer.number, &book[6..8]), (0, &[0, 0][..]));
    assert!(book[16..].iter().all(|&byte| byte == 0xff), "every state of the chain is lost");

    // A plant that must settle, with two stages.
    let band = plants::band().bytes();
    let rows = [2, 0, 0, 1, 1, /**/ 2, 0, 0, 0, 0, /**/ 1, 0, 0, 0, 0];
    let expected = bytes_of([3, 2, 2, 3, 3, 0, 16, 46].iter().chain(&rows));
    check_written(&expected, &[], |book, _| planner.make_indexed(&band, &built(planner, &band), 3, book));
}

/// 10: bytes that are not exactly the plant's index; and where it stands among the other refusals.
pub fn refusals(planner: &dyn Calls) {
    let (plant, index, book) = (bytes_of(&P), bytes_of(&P_INDEX), bytes_of(&m1_numbers()));
    let check = |plant: &[u8], index: &[u8], number| {
        check_make(planner, plant, index, 7, 48, number);
        check_withdraw(planner, plant, index, &book, 4, [48, 8], number);
    };
    check(&plant, &index, 0);
    // Each bit of each byte.
    for (at, bit) in (0..24).flat_map(|at| (0..8).map(move |bit| (at, bit))) {
        let mut index = index.clone();
        index[at] ^= 1 << bit;
        check(&plant, &index, 10);
    }
    // Cut anywhere, and longer.
    for length in 0..24 {
        check(&plant, &index[..length], 10);
    }
    check(&plant, &[&index[..], &[0]].concat(), 10);
    check(&plant, &[&index[..], &[8, 0]].concat(), 10);
    // In another order: as the plant has them, ties downward, neighbours exchanged, one out of place, one twice.
    for arrows in [
        [0, 1, 2, 3, 4, 5, 6, 7],
        [6, 5, 7, 1, 0, 3, 2, 4],
        [6, 5, 0, 1, 7, 2, 3, 4],
        [5, 6, 0, 7, 1, 2, 3, 4],
        [5, 6, 0, 1, 2, 7, 3, 4],
        [6, 0, 1, 7, 2, 3, 4, 5],
        [4, 2, 3, 0, 1, 7, 5, 6],
        [5, 6, 0, 1, 7, 2, 3, 3],
        [5, 6, 0, 1, 7, 2, 3, 8],
    ] {
        check(&plant, &bytes_of(P_INDEX[..4].iter().chain(&arrows)), 10);
    }
    // The index of another plant, and a plant that has the same index.
    check(&changed(&P, &[(23, 0)]), &index, 10);
    check(&plant, &built(planner, &changed(&P, &[(23, 0)])), 10);
    check(&plant, &built(planner, &plants::band().bytes()), 10);
    check(&changed(&P, &[(8, 7)]), &index, 0);
    // One state more, without arrows: the header tells.
    let mut more = [&P[..12], &[0], &P[12..]].concat();
    (more[0], more[5], more[6]) = (5, 26, 74);
    check_make(planner, &bytes_of(&more), &index, 7, 56, 10);
    check_make(planner, &bytes_of(&more), &bytes_of([5].iter().chain(&P_INDEX[1..])), 7, 56, 0);

    the_first_that_applies(planner, &index);
}

/// Each fault added to all those after it: 10 comes straight after 3.
fn the_first_that_applies(planner: &dyn Calls, index: &[u8]) {
    let (plant, book) = (bytes_of(&P), bytes_of(&m1_numbers()));
    let mut faulty_book = m1_numbers();
    let check = |plant: &[u8], index: &[u8], book: &[u8], number| {
        for lengths in [[47, 8], [48, 7], [0, 0]] {
            check_withdraw(planner, plant, index, book, 8, lengths, number);
        }
    };
    for (lengths, number) in [([48, 8], 0), ([47, 8], 7), ([48, 7], 7), ([49, 9], 0)] {
        check_withdraw(planner, &plant, index, &book, 4, lengths, number);
        check_make(planner, &plant, index, 7, lengths[0], if lengths[0] < 48 { 7 } else { 0 });
    }
    check(&plant, index, &book, 6);
    check_make(planner, &plant, index, 8, 47, 6);
    faulty_book[8] = 1024;
    check(&plant, index, &bytes_of(&faulty_book), 5);
    faulty_book[6] = 15;
    let faulty_book = bytes_of(&faulty_book);
    check(&plant, index, &faulty_book, 4);
    let mut faulty_plant = P.to_vec();
    for index in [&index[1..], &[index, &[0]].concat(), &[]] {
        check(&plant, index, &faulty_book, 10);
        check(&plant, index, &book, 10);
        check_make(planner, &plant, index, 8, 47, 10);
        check_make(planner, &plant, index, 8, 48, 10);
        check_make(planner, &plant, index, 7, 47, 10);
    }
    for (at, number, refusal) in [(33, 4, 3), (8, 8, 2), (7, 2, 1)] {
        faulty_plant[at] = number;
        let plant = bytes_of(&faulty_plant);
        for index in [index, &index[1..], &[]] {
            check(&plant, index, &faulty_book, refusal);
            check_make(planner, &plant, index, 8, 47, refusal);
        }
        check_index_number(planner, &plant, 23, refusal);
    }
}
