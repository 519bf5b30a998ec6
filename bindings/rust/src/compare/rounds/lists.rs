//! Lists of withdrawals: random ones, and all of some kinds on strip plant P.

use super::faults::{Kind, Writes};
use super::{any_goal, any_length, any_plant, few_moves, invent_book, lengths_of, m9_book, many_moves};
use super::{strip_and_book, tiny_plant, Comparison};
use crate::calls::mask_bytes;
use crate::plants::{Model, Random};

/// A list of withdrawals, and what it is refused with.
const LIST: Kind = Kind {
    refusals: &[1, 2, 3, 4, 5, 9, 6, 7],
    writes: Writes::BookAndList,
    compare: |comparison, call| comparison.withdraw_list(&call.plant, &call.book, &call.masks, call.lengths).0,
};

/// So many masks to withdraw in turn: each of few moves, or all together of few.
pub fn masks_in_turn(count: usize, model: &Model, random: &mut Random) -> Vec<u32> {
    let few = few_moves(model, random) | few_moves(model, random);
    let spread = random.once_in(2);
    let mut mask = || if spread { few & random.bits() as u32 } else { few_moves(model, random) };
    (0..count).map(|_| mask()).collect()
}

/// The length of a list of masks in bytes: mostly that of a few, sometimes at the edges, and sometimes any.
fn any_list_length(random: &mut Random) -> usize {
    match random.below(8) {
        0 => random.from_to(0, 70),
        1 => [60, 63, 64, 65, 68][random.below(5)],
        2 => 4 * random.from_to(0, 16),
        _ => 4 * random.from_to(0, 4),
    }
}

/// A list of masks of any length in bytes. Some have bytes of any value.
pub fn any_list(model: &Model, random: &mut Random) -> Vec<u8> {
    let length = any_list_length(random);
    let mut list = mask_bytes(&masks_in_turn(length.div_ceil(4), model, random));
    list.truncate(length);
    match random.below(16) {
        0 => list.fill(0xff),
        1 | 2 if length != 0 => list[random.below(length)] = random.bits() as u8,
        _ => {}
    }
    list
}

/// Lists of withdrawals, from a book that was made and from one that nobody made: one of any number of masks, and any
/// other from what it leaves; and lists with faults put in.
pub fn lists_of_withdrawals(comparison: &mut Comparison, random: &mut Random) {
    let model = if random.once_in(4) { any_plant(random) } else { tiny_plant(random) };
    let plant = model.bytes();
    let lengths = lengths_of(&model);
    let (_, made) = comparison.make(&plant, many_moves(&model, random), lengths[0]);
    for book in [made, invent_book(&model, random)] {
        let masks = masks_in_turn(random.from_to(0, 16), &model, random);
        let (answer, rest) = comparison.withdraw_list(&plant, &book, &mask_bytes(&masks), lengths);
        assert_eq!(answer.number, 0, "a list of moves of the plant is accepted");
        any_goal(comparison, &plant, &rest, &model, random);
        let any_lengths = lengths.map(|needed| any_length(needed, random));
        comparison.withdraw_list(&plant, &rest, &any_list(&model, random), any_lengths);
    }
    LIST.some_faults(comparison, 16, random);
}

/// P with every list of at most three masks, those that name a fourth move included, from its book and from M9's.
pub fn every_short_list(comparison: &mut Comparison) {
    let (plant, made) = strip_and_book(comparison);
    let longer = |lists: &[Vec<u32>]| -> Vec<Vec<u32>> {
        let with = |list: &Vec<u32>, mask| list.iter().copied().chain([mask]).collect();
        lists.iter().flat_map(|list| (0..=8).map(move |mask| with(list, mask))).collect()
    };
    for book in [m9_book(&made), made] {
        let mut lists = vec![Vec::new()];
        for _ in 0..=3 {
            for masks in &lists {
                comparison.withdraw_list(&plant, &book, &mask_bytes(masks), [48, 8]);
            }
            lists = longer(&lists);
        }
    }
}

/// P with lists of every length in bytes up to some more than is accepted: with masks of 0 and of 4, with bytes that
/// name every move there could be, and with one such byte in each place.
pub fn every_list_length(comparison: &mut Comparison) {
    let (plant, made) = strip_and_book(comparison);
    for length in 0..=72 {
        let mut lists = [0, 4].map(|mask| mask_bytes(&[mask; 18])).to_vec();
        lists.push(vec![0xff; 72]);
        for list in &mut lists {
            list.truncate(length);
        }
        for book in [m9_book(&made), made.clone()] {
            for masks in &lists {
                comparison.withdraw_list(&plant, &book, masks, [48, 8]);
            }
        }
        for at in 0..length {
            let mut masks = lists[1].clone();
            masks[at] = 0xff;
            comparison.withdraw_list(&plant, &made, &masks, [48, 8]);
        }
    }
}

/// P with every combination of what a list is refused for: the first that applies is returned.
pub fn every_combination_of_refusals(comparison: &mut Comparison) {
    LIST.every_combination(comparison, &[2, 4]);
}
