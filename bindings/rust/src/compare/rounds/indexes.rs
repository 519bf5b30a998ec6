//! Makes and withdrawals by an index, that of the plant and others: random ones, and all of some kinds on small plants.

use super::faults::{Kind, Writes};
use super::{any_goal, any_length, any_plant, both_sorts, damage, few_moves, invent_book, lengths_of, many_moves};
use super::{of_length, or_too_high, tiny_plant, turned, with_book, with_one_changed, Comparison};
use crate::plants::{bytes_of, Model, Random};
use crate::second::format::{index_bytes, number, Plant};

/// The building of an index, and what it is refused with.
const INDEX: Kind = Kind {
    refusals: &[1, 2, 3, 7],
    writes: Writes::Index,
    compare: |comparison, call| comparison.index(&call.plant, call.index_length).0,
};

/// A make by an index, and what it is refused with.
const MAKE: Kind = Kind {
    refusals: &[1, 2, 3, 10, 6, 7],
    writes: Writes::Book,
    compare: |comparison, call| comparison.make_indexed(&call.plant, &call.index, call.mask(), call.lengths[0]).0,
};

/// A withdrawal by an index, and what it is refused with.
const WITHDRAW: Kind = Kind {
    refusals: &[1, 2, 3, 10, 4, 5, 6, 7],
    writes: Writes::BookAndList,
    compare: |comparison, call| {
        comparison.withdraw_indexed(&call.plant, &call.index, &call.book, call.mask(), call.lengths).0
    },
};

/// The index of a plant.
pub fn index_of(plant: &[u8]) -> Vec<u8> {
    index_bytes(&Plant::read(plant).expect("a plant"))
}

/// The index of the plant, or once in a while some other.
pub fn mostly_right(model: &Model, random: &mut Random) -> Vec<u8> {
    match random.once_in(4) {
        true => misfit(model, random),
        false => index_of(&model.bytes()),
    }
}

/// Bytes that are mostly not the index of the plant: cut, with bytes added or changed, in another order, or the index
/// of another plant.
pub fn misfit(model: &Model, random: &mut Random) -> Vec<u8> {
    let plant = Plant::read(&model.bytes()).expect("a plant");
    let mut index = index_bytes(&plant);
    match random.below(8) {
        0 => index.truncate([0, 8, index.len() - 1, random.below(index.len())][random.below(4)]),
        1 => index.extend(vec![random.bits() as u8; random.from_to(1, 2)]),
        2 => index[random.below(8)] ^= 1 << random.below(8),
        3 => damage(&mut index, random),
        4 => index = index_of(&turned(model).bytes()),
        5 => index = index_of(&with_another_end(model, random).bytes()),
        _ => disorder(&mut index, &plant, random),
    }
    index
}

/// The plant with one arrow less, or with another end of it.
fn with_another_end(model: &Model, random: &mut Random) -> Model {
    let mut model = model.clone();
    if !model.arrows.is_empty() {
        let at = random.below(model.arrows.len());
        let end = random.below(model.labels.len()) as u16;
        match random.once_in(4) {
            true => drop(model.arrows.swap_remove(at)),
            false => model.arrows[at][2] = end,
        }
    }
    model
}

/// Puts the arrows of an index in another order: as the plant has them, those into one state downward, two of them
/// exchanged, one out of place, or one of them twice.
fn disorder(index: &mut Vec<u8>, plant: &Plant, random: &mut Random) {
    let mut order: Vec<u16> = index[8..].chunks_exact(2).map(|pair| number(pair, 0)).collect();
    if let Some(last) = order.len().checked_sub(1) {
        let [one, other] = [(); 2].map(|()| random.below(last + 1));
        match random.below(6) {
            0 => order.sort_unstable(),
            1 => order.sort_by_key(|&arrow| (plant.arrows[usize::from(arrow)].to, u16::MAX - arrow)),
            2 => order.swap(one, other),
            3 => order.swap(one, (one + 1).min(last)),
            4 => {
                let arrow = order.remove(one);
                order.insert(other, arrow);
            }
            _ => order[one] = order[other],
        }
    }
    index.truncate(8);
    index.extend(bytes_of(&order));
}

/// An index built, makes and withdrawals by it, from a book that was made and from one that nobody made, and the same
/// by bytes that are not the index; and calls with faults put in.
pub fn indexes(comparison: &mut Comparison, random: &mut Random) {
    let model = if random.once_in(3) { any_plant(random) } else { tiny_plant(random) };
    let (plant, lengths) = (model.bytes(), lengths_of(&model));
    let right = index_of(&plant);
    comparison.index(&plant, any_length(right.len(), random));
    let (_, index) = comparison.index(&plant, right.len());
    let (_, made) = comparison.make_indexed(&plant, &index, many_moves(&model, random), lengths[0]);
    for book in [made, invent_book(&model, random)] {
        let (answer, rest) = comparison.withdraw_indexed(&plant, &index, &book, few_moves(&model, random), lengths);
        assert_eq!(answer.number, 0, "a withdrawal by the index of the plant is accepted");
        any_goal(comparison, &plant, &rest, &model, random);
        let any_lengths = lengths.map(|needed| any_length(needed, random));
        let mask = or_too_high(few_moves(&model, random), random);
        comparison.withdraw_indexed(&plant, &index, &rest, mask, any_lengths);
        with_misfits(comparison, &model, &rest, random);
    }
    for kind in [INDEX, MAKE, WITHDRAW] {
        kind.some_faults(comparison, 1, random);
    }
}

/// Makes and withdrawals by bytes that are mostly not the index: refused with 10 exactly then.
fn with_misfits(comparison: &mut Comparison, model: &Model, book: &[u8], random: &mut Random) {
    let (plant, lengths) = (model.bytes(), lengths_of(model).map(|needed| any_length(needed, random)));
    let right = index_of(&plant);
    for _ in 0..2 {
        let index = misfit(model, random);
        let mut book = book.to_vec();
        if random.once_in(4) {
            damage(&mut book, random);
        }
        let mask = or_too_high(few_moves(model, random), random);
        let made = comparison.make_indexed(&plant, &index, mask, lengths[0]).0;
        let withdrawn = comparison.withdraw_indexed(&plant, &index, &book, mask, lengths).0;
        assert_eq!([made, withdrawn].map(|answer| answer.number == 10), [index != right; 2], "10 for another index");
    }
}

/// A small plant of either sort with every byte of its index, of itself and of its book changed to every other value.
pub fn every_byte(comparison: &mut Comparison) {
    for model in both_sorts() {
        let (plant, book) = with_book(comparison, &model);
        let (index, mask) = (index_of(&plant), model.highest_move());
        let (lengths, longer) = (lengths_of(&model), lengths_of(&model).map(|length| length + 16));
        for index in with_one_changed(&index) {
            let made = comparison.make_indexed(&plant, &index, model.every_move(), lengths[0]).0.number;
            let withdrawn = comparison.withdraw_indexed(&plant, &index, &book, mask, lengths).0.number;
            assert_eq!([made, withdrawn], [10; 2], "one byte is another");
        }
        for plant in with_one_changed(&plant) {
            let (_, own) = comparison.index(&plant, index.len() + 16);
            for index in [&index, &own] {
                comparison.make_indexed(&plant, index, model.every_move(), longer[0]);
                comparison.withdraw_indexed(&plant, index, &book, mask, longer);
            }
        }
        for book in with_one_changed(&book) {
            comparison.withdraw_indexed(&plant, &index, &book, mask, lengths);
        }
    }
}

/// A small plant of either sort with its index cut short everywhere and with bytes added, and with buffers of every
/// length up to some bytes more than is needed.
pub fn every_length(comparison: &mut Comparison) {
    for model in both_sorts() {
        let (plant, book) = with_book(comparison, &model);
        let (index, mask, lengths) = (index_of(&plant), model.highest_move(), lengths_of(&model));
        for length in 0..index.len() + 20 {
            comparison.index(&plant, length);
            let other = of_length(&index, length);
            comparison.make_indexed(&plant, &other, model.every_move(), lengths[0]);
            comparison.withdraw_indexed(&plant, &other, &book, mask, lengths);
        }
        for length in 0..plant.len() + 20 {
            let plant = of_length(&plant, length);
            comparison.index(&plant, index.len());
            comparison.make_indexed(&plant, &index, model.every_move(), lengths[0]);
            comparison.withdraw_indexed(&plant, &index, &book, mask, lengths);
        }
        for length in 0..book.len() + 8 {
            comparison.make_indexed(&plant, &index, model.every_move(), length);
            for list in 0..16 {
                comparison.withdraw_indexed(&plant, &index, &book, mask, [length, list]);
            }
        }
    }
}

/// A small plant of either sort with its arrows in every order: by one alone it is made.
pub fn every_order(comparison: &mut Comparison) {
    for model in both_sorts() {
        let (plant, index) = (model.bytes(), index_of(&model.bytes()));
        let mut accepted = 0;
        let mut order: Vec<u16> = (0..number(&plant, 6)).collect();
        each_order(&mut order, 0, &mut |order| {
            let bytes = [&index[..8], &bytes_of(order)].concat();
            let (answer, _) = comparison.make_indexed(&plant, &bytes, model.every_move(), model.book_length());
            accepted += u32::from(answer.number == 0);
        });
        assert_eq!(accepted, 1, "one order is that of the index");
    }
}

/// Hands on the numbers in every order of those from a place on.
fn each_order(numbers: &mut [u16], from: usize, then: &mut dyn FnMut(&[u16])) {
    if from == numbers.len() {
        return then(numbers);
    }
    for at in from..numbers.len() {
        numbers.swap(from, at);
        each_order(numbers, from + 1, then);
        numbers.swap(from, at);
    }
}

/// P with every combination of what the building of an index, and a make and a withdrawal by it are refused for: the
/// first that applies is returned.
pub fn every_combination_of_refusals(comparison: &mut Comparison) {
    for kind in [INDEX, MAKE, WITHDRAW] {
        kind.every_combination(comparison, &[4]);
    }
}
