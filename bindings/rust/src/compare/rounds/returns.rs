//! Returns of moves: random ones, and all of some kinds on strip plant P.

use super::faults::{Kind, Writes};
use super::{any_goal, any_length, any_plant, few_moves, invent_book, lengths_of, m9_book, many_moves};
use super::{or_too_high, strip_and_book, tiny_plant};
use crate::compare::{in_service, kept_count, Comparison};
use crate::plants::{self, Model, Random};

/// A return, and what it is refused with.
const RETURN: Kind = Kind {
    refusals: &[1, 2, 3, 4, 5, 6, 7],
    writes: Writes::BookAndList,
    compare: |comparison, call| comparison.return_moves(&call.plant, &call.book, call.mask(), call.lengths).0,
};

/// Moves to put back in service: mostly all that are out of it, or some of these; sometimes any.
pub fn moves_back(model: &Model, in_service: u32, random: &mut Random) -> u32 {
    let out = model.every_move() & !in_service;
    match random.below(8) {
        0 => few_moves(model, random),
        1 => model.every_move() & random.bits() as u32,
        2..=4 => out,
        _ => out & random.bits() as u32,
    }
}

/// A plant and its book with many moves in service; mostly some of its states are kept.
fn any_made(comparison: &mut Comparison, random: &mut Random) -> (Model, Vec<u8>) {
    let mut any = || {
        let model = if random.once_in(8) { any_plant(random) } else { tiny_plant(random) };
        let (_, book) = comparison.make(&model.bytes(), many_moves(&model, random), model.book_length());
        (model, book)
    };
    let tried: Option<(Model, Vec<u8>)> = (0..3).map(|_| any()).find(|(_, book)| kept_count(book) != 0);
    tried.unwrap_or_else(any)
}

/// Moves that are withdrawn from a book that was made and come back: all at once, so that the book is the first again,
/// and others from what the withdrawal leaves; returns to a book that nobody made; and returns with faults put in.
pub fn returns(comparison: &mut Comparison, random: &mut Random) {
    let (model, made) = any_made(comparison, random);
    let plant = model.bytes();
    let lengths = lengths_of(&model);
    let withdrawn = few_moves(&model, random) | few_moves(&model, random);
    let (_, rest) = comparison.there_and_back(&plant, &made, withdrawn, lengths);
    for book in [rest, invent_book(&model, random)] {
        let mask = moves_back(&model, in_service(&book), random);
        let (answer, more) = comparison.return_moves(&plant, &book, mask, lengths);
        assert_eq!(answer.number, 0, "a return of moves of the plant is accepted");
        any_goal(comparison, &plant, &more, &model, random);
        let any_lengths = lengths.map(|needed| any_length(needed, random));
        let mask = or_too_high(moves_back(&model, in_service(&more), random), random);
        comparison.return_moves(&plant, &more, mask, any_lengths);
    }
    RETURN.some_faults(comparison, 1, random);
}

/// P's books that are made with each mask, and books of P that nobody made: M9's, one that keeps state 3 too, which P
/// does not allow, one that keeps no other, and those in which every state is lost, with each mask.
fn books_of_p(comparison: &mut Comparison) -> (Vec<u8>, Vec<Vec<u8>>) {
    let (plant, m1_book) = strip_and_book(comparison);
    let mut books: Vec<Vec<u8>> = (0..8).map(|mask| comparison.make(&plant, mask, 48).1).collect();
    let mut keeps_state_3 = m1_book.clone();
    keeps_state_3[6] = 4;
    keeps_state_3[40..48].fill(0);
    let mut lost = m1_book.clone();
    lost[6] = 0;
    lost[16..48].fill(0xff);
    let mut state_3_alone = lost.clone();
    state_3_alone[6] = 1;
    state_3_alone[40..48].fill(0);
    books.extend([m9_book(&m1_book), keeps_state_3, state_3_alone]);
    books.extend((0..8).map(|mask| {
        lost[8] = mask;
        lost.clone()
    }));
    (plant, books)
}

/// P with every mask returned to all these books, those that name a fourth move included.
pub fn every_return(comparison: &mut Comparison) {
    let (plant, books) = books_of_p(comparison);
    for book in &books {
        for mask in (0..16).chain([1 << 31]) {
            comparison.return_moves(&plant, book, mask, [48, 8]);
        }
    }
}

/// P with every mask withdrawn from what is made with every mask, and returned.
pub fn every_round_trip(comparison: &mut Comparison) {
    let plant = plants::strip().bytes();
    for made in 0..8 {
        let (_, book) = comparison.make(&plant, made, 48);
        for withdrawn in 0..8 {
            comparison.there_and_back(&plant, &book, withdrawn, [48, 8]);
        }
    }
}

/// P with every combination of what a return is refused for: the first that applies is returned.
pub fn every_combination_of_refusals(comparison: &mut Comparison) {
    RETURN.every_combination(comparison, &[4]);
}

/// The longest plants of both sorts, all of whose states are lost without move 0: that comes back, and with it every
/// state, in buffers that are just long enough and in those that are short by one byte.
pub fn longest(comparison: &mut Comparison) {
    let model = plants::longest();
    for model in [model.clone().settled(|_| true), model] {
        let plant = model.bytes();
        let [book_length, list_length] = lengths_of(&model);
        let (_, book) = comparison.make(&plant, u32::MAX, book_length);
        let (_, rest) = comparison.there_and_back(&plant, &book, 1, [book_length, list_length]);
        for lengths in [[book_length - 1, list_length], [book_length, list_length - 1]] {
            comparison.return_moves(&plant, &rest, 1, lengths);
        }
    }
}
