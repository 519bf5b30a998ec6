//! The safe wrapper as a caller sees it. Needs the archive.

#![deny(warnings)]

use planbook::{consult, good_moves, index_into, make_indexed_into, make_into, plants, preview_into, return_into};
use planbook::{row, withdraw_indexed_into, withdraw_into, withdraw_list_into};
use planbook::{Advice, Band, Bands, Book, Cost, Desk, End, Entry, Index, Preview, Refusal, Returned, Withdrawn};

#[test]
fn a_book_owns_its_bytes_and_the_plant() {
    let plant = plants::strip().bytes();
    let book = Book::make(&plant, 7).expect("P is a plant");
    assert_eq!(book.plant(), plant);
    assert_eq!((book.states(), book.moves(), book.goals()), (4, 3, 2));
    assert_eq!((book.kept_count(), book.mask(), book.bytes().len()), (3, 7, 48));
    assert_eq!(book.row(2), Ok(&book.bytes()[32..40]));
    assert_eq!(book.consult(0, 1), Ok(Advice::Move { action: 0, wait: 2, seek: 1 }));
    assert_eq!(book.consult(2, 1), Ok(Advice::Move { action: 0, wait: 1, seek: 0 })); // goal 1 is passed
    assert_eq!(book.consult(3, 1), Ok(Advice::Lost));
    let rows: Vec<Option<Vec<Entry>>> = book.rows().map(|row| row.map(Iterator::collect)).collect();
    let entry = |wait, action| Entry { wait, action };
    assert_eq!(rows[0], Some(vec![entry(0, 0), entry(2, 0)]));
    assert_eq!(rows[1], Some(vec![entry(1, 2), entry(1, 0)]));
    assert_eq!(rows[3], None);
}

#[test]
fn a_book_gives_every_good_move() {
    let plant = plants::strip().bytes();
    let book = Book::make(&plant, 7).expect("P is a plant");
    assert_eq!(
        (book.good_moves(2, 1), book.good_moves(0, 1), book.good_moves(1, 0), book.good_moves(3, 0)),
        (Ok(1), Ok(3), Ok(4), Ok(0))
    );
    let (book, _) = book.withdraw(4).expect("move 2 exists");
    assert_eq!((book.good_moves(2, 1), book.good_moves(1, 0)), (Ok(1), Ok(1)));
    assert_eq!((book.good_moves(4, 0), book.good_moves(3, 2)), (Err(Refusal::OutOfBook), Err(Refusal::OutOfBook)));
    assert_eq!(good_moves(&plant, book.bytes(), 2, 1), Ok(1));
}

/// State 0 is in both goals and goes to state 1, which is in goal 0 alone and goes back.
#[test]
fn goals_that_a_state_serves_are_passed() {
    let model =
        plants::Model { moves: 2, goals: 2, settles: false, labels: vec![7, 3], arrows: vec![[0, 1, 1], [1, 0, 0]] };
    let book = Book::make(&model.bytes(), 3).expect("a plant");
    let advice = |action, wait, seek| Ok(Advice::Move { action, wait, seek });
    assert_eq!((book.consult(0, 0), book.consult(0, 1)), (advice(1, 0, 0), advice(1, 0, 1))); // all served: it stays
    assert_eq!((book.consult(1, 0), book.consult(1, 1)), (advice(0, 1, 1), advice(0, 1, 1)));
    assert_eq!((book.good_moves(0, 0), book.good_moves(0, 1)), (Ok(2), Ok(2)));
    assert_eq!((book.good_moves(1, 0), book.good_moves(1, 1)), (Ok(1), Ok(1)));
}

/// State 0 is settled and in goal 0, state 1 is not settled, and state 2 is settled, in both goals, and stays.
#[test]
fn a_book_of_a_plant_that_must_settle_has_stages() {
    let plant = plants::band().bytes();
    let book = Book::make(&plant, 3).expect("a plant");
    assert_eq!((book.has_stages(), book.kept_count(), book.bytes().len()), (true, 3, 46));
    assert_eq!(book.stages().collect::<Vec<_>>(), [Some(2), Some(2), Some(1)]);
    assert_eq!((book.stage(1), book.stage(3)), (Ok(Some(2)), Err(Refusal::OutOfBook)));
    assert_eq!(book.row(1), Ok(&book.bytes()[26..36]));
    let rows: Vec<Option<Vec<Entry>>> = book.rows().map(|row| row.map(Iterator::collect)).collect();
    let entry = |wait, action| Entry { wait, action };
    let expected = [[entry(0, 0), entry(1, 1)], [entry(0, 0); 2], [entry(0, 0); 2]];
    assert_eq!(rows, expected.map(|row| Some(row.to_vec())));
    assert_eq!(book.consult(1, 1), Ok(Advice::Move { action: 0, wait: 0, seek: 1 })); // it leaves its stage
    assert_eq!((book.good_moves(1, 0), book.good_moves(0, 0)), (Ok(1), Ok(2)));

    // Without move 1 state 0 has no way to goal 1.
    let (rest, dropped) = book.withdraw(2).expect("move 1 exists");
    assert_eq!((rest.stages().collect::<Vec<_>>(), dropped), (vec![None, Some(2), Some(1)], vec![0]));
    assert_eq!(book.preview(2), Ok(Preview { dropped: vec![0], kept: 2 }));
    assert_eq!(rest.return_moves(2), Ok((book.clone(), vec![0])));
    assert_eq!(book.withdraw_list(&[2, 1]).map(|(rest, dropped)| (rest.kept_count(), dropped)), Ok((0, vec![0, 1, 2])));
    assert_eq!(Book::from_bytes(&plant, book.bytes()), Ok(book));
}

/// The same plant with the last header number 0 and no label with bit 9, and its book, which has no stages.
#[test]
fn the_sort_of_a_book_is_that_of_its_plant() {
    let model = plants::band();
    let settled = Book::make(&model.bytes(), 3).expect("a plant");
    let labels = model.labels.iter().map(|label| label & !plants::SETTLED).collect();
    let model = plants::Model { settles: false, labels, ..model };
    let plain = Book::make(&model.bytes(), 3).expect("a plant");
    assert_eq!((plain.has_stages(), plain.stage(0), plain.bytes().len()), (false, Ok(None), 40));
    assert_eq!(plain.stages().collect::<Vec<_>>(), [None; 3]);
    for (plant, book) in [(settled.plant(), &plain), (plain.plant(), &settled)] {
        assert_eq!(Book::from_bytes(plant, book.bytes()), Err(Refusal::BookHeader));
        assert_eq!(good_moves(plant, book.bytes(), 0, 0), Err(Refusal::BookHeader));
        assert_eq!(consult(book.bytes(), 0, 0), book.consult(0, 0)); // which takes both
    }
    let mut out = [0; 46];
    assert_eq!(make_into(settled.plant(), 3, &mut out[..45]), Err(Refusal::Buffer));
    assert_eq!((make_into(settled.plant(), 3, &mut out), make_into(plain.plant(), 3, &mut out)), (Ok(46), Ok(40)));
    for stage in [0, 4, 255] {
        assert_eq!(consult(&changed(settled.bytes(), 16, stage), 0, 0), Err(Refusal::BookRow));
    }
    assert_eq!(consult(&changed(settled.bytes(), 16, 3), 0, 0), settled.consult(0, 0));
    let longest = Book::make(&plants::longest().settled(|_| true).bytes(), 1).expect("a plant");
    assert_eq!(longest.bytes().len(), planbook::sys::LONGEST_BOOK);
}

#[test]
fn withdrawals_in_turn_and_at_once_agree() {
    let model = plants::Family::Random.build(200, 3);
    let plant = model.bytes();
    let made = Book::make(&plant, model.every_move()).expect("a plant");
    let (one, first) = made.withdraw(1).expect("move 0 exists");
    let (two, second) = one.withdraw(2).expect("move 1 exists");
    let (both, dropped) = made.withdraw(3).expect("moves 0 and 1 exist");
    assert_eq!(two, both);
    assert_eq!(two, Book::make(&plant, model.every_move() & !3).expect("a plant"));
    let mut joined = [first, second].concat();
    joined.sort_unstable();
    assert_eq!(joined, dropped);
}

#[test]
fn a_list_is_the_withdrawals_in_turn() {
    let plant = plants::strip().bytes();
    let book = Book::make(&plant, 7).expect("P is a plant");
    let (rest, dropped) = book.withdraw_list(&[2, 4]).expect("moves 1 and 2 exist");
    assert_eq!((&rest, dropped), (&Book::make(&plant, 1).expect("P is a plant"), vec![]));
    assert_eq!(book.withdraw_list(&[2, 4]), book.withdraw(6));
    assert_eq!(book.withdraw_list(&[4, 1]), book.withdraw(5));
    assert_eq!(book.withdraw_list(&[4, 1]).map(|(rest, dropped)| (rest.mask(), dropped)), Ok((2, vec![0, 1, 2])));
    assert_eq!(book.withdraw_list(&[]), Ok((book.clone(), vec![])));
    assert_eq!(book.withdraw_list(&[0; 16]), Ok((book.clone(), vec![])));
    assert_eq!(book.withdraw_list(&[0; 17]), Err(Refusal::MaskList));
    assert_eq!((book.withdraw_list(&[1, 8]), book.withdraw_list(&[8, 1])), (Err(Refusal::Mask), Err(Refusal::Mask)));
    assert_eq!(book.withdraw_list(&[8; 17]), Err(Refusal::MaskList));

    // M9's book, which nobody made: an empty list drops states 0 and 2.
    let (rest, dropped) = m9_book(&book).withdraw_list(&[]).expect("nothing is named");
    assert_eq!((rest.kept_count(), rest.mask(), dropped), (0, 7, vec![0, 2]));

    // 16 masks of a move each, from the highest down.
    let model = plants::Family::Random.build(200, 3);
    let made = Book::make(&model.bytes(), model.every_move()).expect("a plant");
    let masks: Vec<u32> = (0..16).rev().map(|action| 1 << action).collect();
    for count in 0..=16 {
        let single = |(book, dropped): (Book, Vec<u16>), mask: &u32| {
            let (book, more) = book.withdraw(*mask).expect("a move of the plant");
            (book, [dropped, more].concat())
        };
        let (last, mut dropped) = masks[..count].iter().fold((made.clone(), vec![]), single);
        dropped.sort_unstable();
        assert_eq!(made.withdraw_list(&masks[..count]), Ok((last, dropped)), "{count} masks");
    }
}

/// M9's book, which nobody made: M1's with row 1 lost.
fn m9_book(m1: &Book) -> Book {
    let mut bytes = changed(m1.bytes(), 6, 2);
    bytes[24..32].fill(0xff);
    Book::from_bytes(m1.plant(), &bytes).expect("accepted all the same")
}

#[test]
fn moves_come_back_in_service() {
    let plant = plants::strip().bytes();
    let m1 = Book::make(&plant, 7).expect("P is a plant");
    let (m2, _) = m1.withdraw(4).expect("move 2 exists");
    assert_eq!(m2.return_moves(4), Ok((m1.clone(), vec![])));
    assert_eq!(m2.return_moves(5), Ok((m1.clone(), vec![]))); // move 0 is in service already
    assert_eq!(m2.return_moves(0), Ok((m2.clone(), vec![])));
    assert_eq!((m2.return_moves(8), m2.return_moves(1 << 31)), (Err(Refusal::Mask), Err(Refusal::Mask)));
    let (lost, dropped) = m1.withdraw(1).expect("move 0 exists"); // M3
    assert_eq!(lost.return_moves(1), Ok((m1.clone(), dropped)));
    assert_eq!(lost.return_moves(1).map(|(_, gained)| gained), Ok(vec![0, 1, 2]));
    assert_eq!(m9_book(&m1).return_moves(0), Ok((m1.clone(), vec![1])));

    // The upper half of 16 moves goes by a list, and comes back from the lowest up.
    let model = plants::Family::Random.build(200, 3);
    let made = Book::make(&model.bytes(), model.every_move()).expect("a plant");
    let masks: Vec<u32> = (8..16).map(|action| 1 << action).collect();
    let (mut book, dropped) = made.withdraw_list(&masks).expect("moves of the plant");
    let mut gained = Vec::new();
    for mask in masks {
        let (next, more) = book.return_moves(mask).expect("a move of the plant");
        assert_eq!((next.mask(), more.len() as u16), (book.mask() | mask, next.kept_count() - book.kept_count()));
        gained.extend(more);
        book = next;
    }
    gained.sort_unstable();
    assert_eq!((book, gained), (made, dropped));
}

#[test]
fn books_are_made_and_withdrawn_by_an_index() {
    let plant = plants::strip().bytes();
    let index = Index::of(&plant).expect("P is a plant");
    assert_eq!((index.plant(), index.bytes().len()), (&plant[..], 24));
    assert_eq!(Index::from_bytes(&plant, index.bytes()), Ok(index.clone()));
    assert_eq!(Index::from_bytes(&plant, &index.bytes()[..23]), Err(Refusal::Index));
    assert_eq!(Index::from_bytes(&plant, &[index.bytes(), &[0]].concat()), Err(Refusal::Index));
    assert_eq!(Index::from_bytes(&plant[1..], index.bytes()), Err(Refusal::PlantHeader));
    assert_eq!(Index::of(&changed(&plant, 16, 8)), Err(Refusal::PlantLabel));

    let m1 = Book::make_indexed(&index, 7).expect("P is a plant");
    assert_eq!((&m1, m1.plant()), (&Book::make(&plant, 7).expect("P is a plant"), &plant[..]));
    for mask in 0..8 {
        assert_eq!(m1.withdraw_indexed(&index, mask), m1.withdraw(mask), "mask {mask}");
        assert_eq!(Book::make_indexed(&index, mask), Book::make(&plant, mask), "mask {mask}");
    }
    assert_eq!(m1.withdraw_indexed(&index, 1).map(|(_, dropped)| dropped), Ok(vec![0, 1, 2]));
    assert_eq!(m9_book(&m1).withdraw_indexed(&index, 0), m9_book(&m1).withdraw(0));
    assert_eq!(
        (Book::make_indexed(&index, 8), m1.withdraw_indexed(&index, 8)),
        (Err(Refusal::Mask), Err(Refusal::Mask))
    );

    // A plant that must settle, and the index of another plant.
    let band = Index::of(&plants::band().bytes()).expect("a plant");
    let book = Book::make_indexed(&band, 3).expect("a plant");
    assert_eq!(Ok(&book), Book::make(band.plant(), 3).as_ref());
    assert_eq!(book.withdraw_indexed(&band, 1), book.withdraw(1));
    assert_eq!(m1.withdraw_indexed(&band, 1), Err(Refusal::Index));

    // 16 moves, from the highest down.
    let model = plants::Family::Random.build(200, 3);
    let index = Index::of(&model.bytes()).expect("a plant");
    let mut book = Book::make_indexed(&index, model.every_move()).expect("a plant");
    for action in (0..16).rev() {
        let next = book.withdraw_indexed(&index, 1 << action);
        assert_eq!(next, book.withdraw(1 << action), "move {action}");
        book = next.expect("a move of the plant").0;
    }
    let longest = Index::of(&plants::longest().bytes()).expect("a plant");
    assert_eq!(longest.bytes().len(), planbook::sys::LONGEST_INDEX);
}

#[test]
fn a_book_shows_what_a_lock_out_costs() {
    let plant = plants::strip().bytes();
    let book = Book::make(&plant, 7).expect("P is a plant");
    let cost = |dropped: &[u16], kept| Ok(Preview { dropped: dropped.to_vec(), kept });
    assert_eq!((book.preview(4), book.preview(2), book.preview(0)), (cost(&[], 3), cost(&[], 3), cost(&[], 3)));
    assert_eq!((book.preview(1), book.preview(7)), (cost(&[0, 1, 2], 0), cost(&[0, 1, 2], 0)));
    assert_eq!((book.preview(8), book.preview(1 << 31)), (Err(Refusal::Mask), Err(Refusal::Mask)));
    assert_eq!(book, Book::make(&plant, 7).expect("P is a plant")); // nothing is withdrawn by looking

    // A ladder from state 512 on, all of which is lost without its highest move, beside a ring that stays kept.
    let model = plants::Family::LadderRing.build(1024, 1);
    let book = Book::make(&model.bytes(), model.every_move()).expect("a plant");
    let expected = cost(&(512..1024).collect::<Vec<u16>>(), 512);
    assert_eq!((book.kept_count(), book.preview(model.highest_move())), (1024, expected));
}

/// The bytes with one changed.
fn changed(bytes: &[u8], at: usize, value: u8) -> Vec<u8> {
    let mut bytes = bytes.to_vec();
    bytes[at] = value;
    bytes
}

#[test]
fn every_refusal_has_its_name() {
    let plant = plants::strip().bytes();
    let made = |plant: &[u8], mask| Book::make(plant, mask).map(|book| book.kept_count());
    assert_eq!(made(&plant[..15], 7), Err(Refusal::PlantHeader));
    assert_eq!(made(&changed(&plant, 16, 8), 7), Err(Refusal::PlantLabel));
    assert_eq!(made(&changed(&plant, 70, 4), 7), Err(Refusal::PlantArrow));
    assert_eq!(made(&plant, 8), Err(Refusal::Mask));

    let mut book = [0; 48];
    assert_eq!(make_into(&plant, 7, &mut book[..47]), Err(Refusal::Buffer));
    assert_eq!(make_into(&plant, 7, &mut book), Ok(48));
    assert_eq!(consult(&book[..15], 0, 0), Err(Refusal::BookHeader));
    assert_eq!(consult(&changed(&book, 6, 2), 0, 0), Err(Refusal::BookRow));
    assert_eq!(consult(&book, 0, 2), Err(Refusal::OutOfBook));
    assert_eq!(row(&book, 4), Err(Refusal::OutOfBook));
    assert_eq!(row(&[], 0), Err(Refusal::BookHeader));
    assert_eq!(good_moves(&[], &book, 0, 0), Err(Refusal::PlantHeader));
    assert_eq!(good_moves(&changed(&plant, 16, 8), &book, 0, 0), Err(Refusal::PlantLabel));
    assert_eq!(good_moves(&changed(&plant, 70, 4), &book, 0, 0), Err(Refusal::PlantArrow));
    assert_eq!(good_moves(&changed(&plant, 2, 4), &book, 0, 0), Err(Refusal::BookHeader)); // a plant with another move
    assert_eq!(good_moves(&plant, &changed(&book, 6, 2), 0, 0), Err(Refusal::BookRow));
    assert_eq!(good_moves(&plant, &book, 0, 2), Err(Refusal::OutOfBook));

    let (mut out, mut drops) = ([0; 48], [0; 8]);
    assert_eq!(withdraw_into(&plant, &book, 4, &mut out, &mut drops[..7]), Err(Refusal::Buffer));
    assert_eq!(withdraw_into(&plant, &book, 4, &mut out, &mut drops), Ok(Withdrawn { length: 48, drops: 0 }));
}

#[test]
fn every_refusal_of_a_preview_has_its_name() {
    let plant = plants::strip().bytes();
    let (mut book, mut drops) = ([0; 48], [0; 8]);
    assert_eq!(make_into(&plant, 7, &mut book), Ok(48));
    let mut preview = |plant: &[u8], book: &[u8], mask, length| preview_into(plant, book, mask, &mut drops[..length]);
    assert_eq!(preview(&plant[..71], &book, 4, 8), Err(Refusal::PlantHeader));
    assert_eq!(preview(&changed(&plant, 16, 8), &book, 4, 8), Err(Refusal::PlantLabel));
    assert_eq!(preview(&changed(&plant, 70, 4), &book, 4, 8), Err(Refusal::PlantArrow));
    assert_eq!(preview(&changed(&plant, 2, 4), &book, 4, 8), Err(Refusal::BookHeader)); // a plant with another move
    assert_eq!(preview(&plant, &changed(&book, 6, 2), 4, 8), Err(Refusal::BookRow));
    assert_eq!(preview(&plant, &book, 8, 8), Err(Refusal::Mask));
    assert_eq!(preview(&plant, &book, 4, 7), Err(Refusal::Buffer));
    assert_eq!(preview(&plant, &book, 4, 8), Ok(Cost { drops: 0, kept: 3 }));
}

#[test]
fn every_refusal_of_a_list_has_its_name() {
    let plant = plants::strip().bytes();
    let (mut book, mut out, mut drops) = ([0; 48], [0; 48], [0; 8]);
    assert_eq!(make_into(&plant, 7, &mut book), Ok(48));
    let mut list = |plant: &[u8], book: &[u8], masks: &[u32], lengths: [usize; 2]| {
        withdraw_list_into(plant, book, masks, &mut out[..lengths[0]], &mut drops[..lengths[1]])
    };
    // Each with faults that come after it: a list that is too long, with a mask that is bad, and buffers too short.
    let bad = [8; 17];
    assert_eq!(list(&plant[..71], &book, &bad, [47, 7]), Err(Refusal::PlantHeader));
    assert_eq!(list(&changed(&plant, 16, 8), &book, &bad, [47, 7]), Err(Refusal::PlantLabel));
    assert_eq!(list(&changed(&plant, 70, 4), &book, &bad, [47, 7]), Err(Refusal::PlantArrow));
    assert_eq!(list(&changed(&plant, 2, 4), &book, &bad, [47, 7]), Err(Refusal::BookHeader)); // another move
    assert_eq!(list(&plant, &changed(&book, 6, 2), &bad, [47, 7]), Err(Refusal::BookRow));
    assert_eq!(list(&plant, &book, &bad, [47, 7]), Err(Refusal::MaskList));
    assert_eq!(list(&plant, &book, &bad[..16], [47, 7]), Err(Refusal::Mask));
    assert_eq!(list(&plant, &book, &[2, 4], [47, 8]), Err(Refusal::Buffer));
    assert_eq!(list(&plant, &book, &[2, 4], [48, 7]), Err(Refusal::Buffer));
    assert_eq!(list(&plant, &book, &[2, 4], [48, 8]), Ok(Withdrawn { length: 48, drops: 0 }));
}

#[test]
fn every_refusal_of_a_return_has_its_name() {
    let plant = plants::strip().bytes();
    let (mut book, mut out, mut gained) = ([0; 48], [0; 48], [9; 8]);
    assert_eq!(make_into(&plant, 6, &mut book), Ok(48));
    let mut give_back = |plant: &[u8], book: &[u8], mask, lengths: [usize; 2]| {
        return_into(plant, book, mask, &mut out[..lengths[0]], &mut gained[..lengths[1]])
    };
    // Each with faults that come after it: a mask that is bad, and buffers too short.
    assert_eq!(give_back(&plant[..71], &book, 8, [47, 7]), Err(Refusal::PlantHeader));
    assert_eq!(give_back(&changed(&plant, 16, 8), &book, 8, [47, 7]), Err(Refusal::PlantLabel));
    assert_eq!(give_back(&changed(&plant, 70, 4), &book, 8, [47, 7]), Err(Refusal::PlantArrow));
    assert_eq!(give_back(&changed(&plant, 2, 4), &book, 8, [47, 7]), Err(Refusal::BookHeader)); // another move
    assert_eq!(give_back(&plant, &changed(&book, 6, 1), 8, [47, 7]), Err(Refusal::BookRow));
    assert_eq!(give_back(&plant, &book, 8, [47, 7]), Err(Refusal::Mask));
    assert_eq!(give_back(&plant, &book, 1, [47, 8]), Err(Refusal::Buffer));
    assert_eq!(give_back(&plant, &book, 1, [48, 7]), Err(Refusal::Buffer));
    assert_eq!(give_back(&plant, &book, 1, [48, 8]), Ok(Returned { length: 48, gained: 3 }));
    assert_eq!(gained, [0, 0, 1, 0, 2, 0, 9, 9]);
    assert_eq!(make_into(&plant, 7, &mut book), Ok(48));
    assert_eq!(out, book);
}

#[test]
fn every_refusal_by_an_index_has_its_name() {
    let plant = plants::strip().bytes();
    let (mut index, mut book, mut out, mut drops) = ([0; 24], [0; 48], [0; 48], [0; 8]);
    assert_eq!(index_into(&plant[..71], &mut index), Err(Refusal::PlantHeader));
    assert_eq!(index_into(&changed(&plant, 16, 8), &mut index), Err(Refusal::PlantLabel));
    assert_eq!(index_into(&changed(&plant, 70, 4), &mut index), Err(Refusal::PlantArrow));
    assert_eq!(index_into(&plant, &mut index[..23]), Err(Refusal::Buffer));
    assert_eq!(index, [0; 24]);
    assert_eq!(index_into(&plant, &mut index), Ok(24));
    assert_eq!(make_indexed_into(&plant, &index, 7, &mut book), Ok(48));
    let mut withdraw = |plant: &[u8], index: &[u8], book: &[u8], mask, lengths: [usize; 2]| {
        withdraw_indexed_into(plant, index, book, mask, &mut out[..lengths[0]], &mut drops[..lengths[1]])
    };
    // Each with faults that come after it: another index, book and mask that are bad, and buffers too short.
    let (other, bad_book) = (changed(&index, 23, 1), changed(&book, 12, 15));
    assert_eq!(withdraw(&plant[..71], &other, &bad_book, 8, [47, 7]), Err(Refusal::PlantHeader));
    assert_eq!(withdraw(&changed(&plant, 16, 8), &other, &bad_book, 8, [47, 7]), Err(Refusal::PlantLabel));
    assert_eq!(withdraw(&changed(&plant, 70, 4), &other, &bad_book, 8, [47, 7]), Err(Refusal::PlantArrow));
    assert_eq!(withdraw(&plant, &other, &bad_book, 8, [47, 7]), Err(Refusal::Index));
    assert_eq!(withdraw(&plant, &index, &bad_book, 8, [47, 7]), Err(Refusal::BookHeader));
    assert_eq!(withdraw(&plant, &index, &changed(&book, 6, 2), 8, [47, 7]), Err(Refusal::BookRow));
    assert_eq!(withdraw(&plant, &index, &book, 8, [47, 7]), Err(Refusal::Mask));
    assert_eq!(withdraw(&plant, &index, &book, 1, [47, 8]), Err(Refusal::Buffer));
    assert_eq!(withdraw(&plant, &index, &book, 1, [48, 7]), Err(Refusal::Buffer));
    assert_eq!(withdraw(&plant, &index, &book, 1, [48, 8]), Ok(Withdrawn { length: 48, drops: 3 }));
    assert_eq!(make_indexed_into(&plant, &other, 8, &mut book[..47]), Err(Refusal::Index));
    assert_eq!(make_indexed_into(&plant, &index, 8, &mut book[..47]), Err(Refusal::Mask));
    assert_eq!(make_indexed_into(&plant, &index, 7, &mut book[..47]), Err(Refusal::Buffer));
}

/// Below -1, from -1 to 1 and from 2 on.
#[test]
fn bands_place_a_reading() {
    let bands = [
        Band { lower: End::Open, upper: End::At(-1.0), state: 5 },
        Band { lower: End::At(-1.0), upper: End::At(1.0), state: 6 },
        Band { lower: End::At(2.0), upper: End::Open, state: 7 },
    ];
    let table = Bands::new(&bands);
    let places = [-1e300, -1.5, -1.0, 0.0, 1.0, 1.5, 2.0, 1e300].map(|reading| table.place(8, reading, 0.0));
    let told = [Some(5), Some(5), Some(6), Some(6), None, None, Some(7), Some(7)];
    assert_eq!(places, told.map(Ok));
    assert_eq!(table.place(8, 3.5, 1.5), Ok(Some(7)));
    assert_eq!(table.place(7, 0.0, 0.0), Err(Refusal::Bands)); // state 7 of 7
    assert_eq!(table.place(8, f64::INFINITY, 0.0), Err(Refusal::Reading));
    assert_eq!(table.place(8, f64::MAX, -f64::MAX), Err(Refusal::Reading));
    assert_eq!(table, Bands::new(&bands));
    assert_eq!(Bands::new(&[bands[1]; 2]).place(8, f64::NAN, 0.0), Err(Refusal::Bands));
    // they overlap
}

/// Any number of bands can be put in a table, and 1 to 64 are accepted.
#[test]
fn bands_are_counted_by_the_library() {
    for count in [0, 1, 63, 64, 65, 1000] {
        let band = |at: u32| Band { lower: End::At(at.into()), upper: End::At(f64::from(at) + 1.0), state: at };
        let table = Bands::new(&(0..count).map(band).collect::<Vec<_>>());
        let told = if (1..=64).contains(&count) { Ok(Some(count - 1)) } else { Err(Refusal::Bands) };
        assert_eq!(table.place(count, f64::from(count) - 0.5, 0.0), told, "{count} bands");
    }
    assert_eq!(Bands::default().place(1, 0.0, 0.0), Err(Refusal::Bands));
}

/// A desk follows M1's book of P, is told wrong, and goes on.
#[test]
fn a_desk_follows_the_book() {
    let book = Book::make(&plants::strip().bytes(), 7).expect("P is a plant");
    let shown = |action, wait, seek| Advice::Move { action, wait, seek };
    let desk = Desk::start(&book, 0).expect("a state of P");
    assert_eq!((desk.advice(), desk.state(), desk.goal()), (shown(0, 2, 1), 0, 1));
    // A refused report consumes nothing: the same desk is told again.
    assert_eq!((desk.report(&book, 2), desk.report(&book, 3)), (Err(Refusal::Report), Err(Refusal::Report)));
    assert_eq!(
        (desk.report(&book, 4), desk.report(&book, u16::MAX)),
        (Err(Refusal::OutOfBook), Err(Refusal::OutOfBook))
    );
    let next = desk.report(&book, 1).expect("move 0 leads there");
    assert_eq!((next.advice(), next.state(), next.goal()), (shown(0, 1, 1), 1, 1));
    assert_eq!(desk, Desk::start(&book, 0).expect("a state of P")); // as it was
    let last = next.report(&book, 2).expect("move 0 leads there");
    assert_eq!((last.advice(), last.state(), last.goal()), (shown(0, 1, 0), 2, 0));
    assert_eq!(last.report(&book, 0), Ok(desk)); // round

    for desk in [desk, next, last] {
        assert_eq!(Desk::resume(&book, desk.state(), desk.goal()), Ok(desk));
    }
    assert_eq!(Desk::start(&book, 4), Err(Refusal::OutOfBook));
    assert_eq!(
        (Desk::resume(&book, 4, 0), Desk::resume(&book, 0, 2)),
        (Err(Refusal::OutOfBook), Err(Refusal::OutOfBook))
    );
}

/// Lost states are held and shown as lost, and no report follows them.
#[test]
fn a_desk_is_lost() {
    let m1 = Book::make(&plants::strip().bytes(), 7).expect("P is a plant");
    let desk = Desk::start(&m1, 3).expect("a state of P");
    assert_eq!((desk.advice(), desk.state(), desk.goal()), (Advice::Lost, 3, 0));
    for state in 0..4 {
        assert_eq!(desk.report(&m1, state), Err(Refusal::Report));
    }
    // In a book nobody made a report may lead there; the goal sought is held.
    let m9 = m9_book(&m1);
    let desk = Desk::start(&m9, 0).and_then(|desk| desk.report(&m9, 1)).expect("move 0 leads there");
    assert_eq!((desk.advice(), desk.state(), desk.goal()), (Advice::Lost, 1, 1));
    assert_eq!(desk.report(&m9, 2), Err(Refusal::Report));
    let desk = desk.in_book(&m1).expect("a book of P");
    assert_eq!(desk.advice(), Advice::Move { action: 0, wait: 1, seek: 1 });
    assert!(desk.report(&m1, 2).is_ok());
}

/// Moves go out of service and come back on the way.
#[test]
fn a_desk_takes_another_book() {
    let m1 = Book::make(&plants::strip().bytes(), 7).expect("P is a plant");
    let (m2, _) = m1.withdraw(4).expect("move 2 exists");
    let desk = Desk::start(&m1, 1).expect("a state of P");
    assert_eq!(desk.advice(), Advice::Move { action: 2, wait: 1, seek: 0 });
    assert_eq!(desk.report(&m2, 0), Err(Refusal::Report)); // in that book it is move 0, which leads to state 2
    let desk = desk.in_book(&m2).expect("a book of P");
    assert_eq!(desk.advice(), Advice::Move { action: 0, wait: 2, seek: 0 });
    let desk = desk.report(&m2, 2).expect("move 0 leads there");
    assert_eq!((desk.advice(), desk.goal()), (Advice::Move { action: 0, wait: 1, seek: 0 }, 0));
    // A book for another plant: the desk's state is not in it, or it has other arrows.
    let other = Book::make(&plants::band().bytes(), 3).expect("a plant");
    assert_eq!(desk.report(&other, 0), Err(Refusal::Report));
    assert_eq!(desk.report(&other, 3), Err(Refusal::OutOfBook));
    let band = Desk::start(&other, 0).and_then(|desk| desk.report(&other, 1)).expect("move 1 leads there");
    assert_eq!(band.advice(), Advice::Move { action: 0, wait: 0, seek: 1 });
}
