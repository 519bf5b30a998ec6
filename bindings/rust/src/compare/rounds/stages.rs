//! Books with stages that nobody made, and books of one sort with plants of the other: random ones, and all of some
//! kinds on small plants.

use super::{both_sorts, few_moves, invent_book, lengths_of, look_everywhere, look_up, many_moves, masks_in_turn};
use super::{moves_back, with_book, withdraw_and_preview};
use crate::calls::mask_bytes;
use crate::compare::{in_service, Comparison};
use crate::plants::{self, Model, Random, SETTLED, WAYS_TO_SETTLE};
use crate::second::format::number;

/// Books of a plant that must settle with stages changed, or rows made lost in part or whole, and books of the other
/// sort, in every call.
pub fn stages(comparison: &mut Comparison, random: &mut Random) {
    let model = match random.once_in(4) {
        true => WAYS_TO_SETTLE[random.below(3)].of(plants::any_size(random), random),
        false => plants::tiny_settled(random),
    };
    let (_, made) = comparison.make(&model.bytes(), many_moves(&model, random), model.book_length());
    for _ in 0..4 {
        let mut book = if random.once_in(2) { made.clone() } else { invent_book(&model, random) };
        change_rows(&mut book, random);
        every_call(comparison, &model, &book, random);
    }
    let other = of_the_other_sort(&model);
    every_call(comparison, &model, &invent_book(&other, random), random);
    every_call(comparison, &other, &made, random);
}

/// Withdrawals, single and by a list, a preview, a return and lookups.
fn every_call(comparison: &mut Comparison, model: &Model, book: &[u8], random: &mut Random) {
    let (plant, lengths) = (model.bytes(), lengths_of(model));
    withdraw_and_preview(comparison, &plant, book, few_moves(model, random), lengths);
    let masks = masks_in_turn(random.from_to(0, 3), model, random);
    comparison.withdraw_list(&plant, book, &mask_bytes(&masks), lengths);
    comparison.return_moves(&plant, book, moves_back(model, in_service(book), random), lengths);
    look_up(comparison, &plant, book, model, random);
}

/// The rows of a book with stages.
fn rows_of(book: &mut [u8]) -> Vec<&mut [u8]> {
    let row_length = 2 + 4 * usize::from(number(book, 4));
    book[16..].chunks_exact_mut(row_length).collect()
}

/// Sets K to the number of rows that are not wholly lost.
fn count_kept(book: &mut [u8]) {
    let kept = rows_of(book).iter().filter(|row| row.iter().any(|&byte| byte != 0xff)).count() as u16;
    book[6..8].copy_from_slice(&kept.to_le_bytes());
}

/// Stages that a row may open with and those that it may not: around 0, around the number of states, and the largest.
fn edges(states: u16) -> [u16; 9] {
    [0, 1, 2, 3, states - 1, states, states + 1, u16::MAX - 1, u16::MAX]
}

/// Changes some rows of a book with stages, and mostly K with them.
fn change_rows(book: &mut [u8], random: &mut Random) {
    let states = number(book, 0);
    let mut rows = rows_of(book);
    for _ in 0..random.from_to(1, 3) {
        let row = &mut rows[random.below(states.into())];
        match random.below(12) {
            0 => row[..2].fill(0xff),
            1 => row[2..].fill(0xff),
            2 => row.fill(0xff),
            3..=5 => row[..2].copy_from_slice(&edges(states)[random.below(9)].to_le_bytes()),
            _ => row[..2].copy_from_slice(&(random.from_to(1, states.into()) as u16).to_le_bytes()),
        }
    }
    if !random.once_in(8) {
        count_kept(book);
    }
}

/// The same plant with the other last header number.
fn of_the_other_sort(model: &Model) -> Model {
    let labels = model.labels.iter().map(|label| label & !SETTLED).collect();
    Model { settles: !model.settles, labels, ..model.clone() }
}

/// A small plant that must settle, with each row of its book opening with every stage up to some more than there may
/// be, and with the largest numbers; or with its stage or its entries alone lost; with K as it was and as it is then.
pub fn every_stage(comparison: &mut Comparison) {
    let model = plants::band();
    let (plant, made) = with_book(comparison, &model);
    for row in 0..model.labels.len() {
        let mut books = Vec::new();
        for stage in (0..=8).chain([255, 256, 257, 1024, u16::MAX - 1, u16::MAX]) {
            let mut book = made.clone();
            rows_of(&mut book)[row][..2].copy_from_slice(&stage.to_le_bytes());
            books.push(book);
        }
        let mut book = made.clone();
        rows_of(&mut book)[row][2..].fill(0xff);
        books.push(book);
        let mut counted = books.clone();
        counted.iter_mut().for_each(|book| count_kept(book));
        for book in books.iter().chain(&counted) {
            every_call_with(comparison, &model, &plant, book);
        }
    }
}

/// Each call of a small plant of either sort with a book of the other: consult and row take it.
pub fn every_other_sort(comparison: &mut Comparison) {
    for model in both_sorts() {
        let other = of_the_other_sort(&model);
        let (_, book) = with_book(comparison, &other);
        every_call_with(comparison, &model, &model.bytes(), &book);
        let refused = comparison.withdraw(&model.bytes(), &book, 1, lengths_of(&model)).0.number;
        let taken = comparison.consult(&book, 0, 0).number;
        assert_eq!((refused, taken), (4, 0), "the sort of a book is compared with the plant's alone");
    }
}

fn every_call_with(comparison: &mut Comparison, model: &Model, plant: &[u8], book: &[u8]) {
    let lengths = lengths_of(model);
    withdraw_and_preview(comparison, plant, book, 1, lengths);
    comparison.withdraw_list(plant, book, &mask_bytes(&[0, 2]), lengths);
    comparison.return_moves(plant, book, 1, lengths);
    look_everywhere(comparison, plant, book, model);
}
