//! Plants with what their calls are lent, and the calls that are measured on them.

use std::hint::black_box;
use std::mem::swap;

use crate::clock::mean_in_turn;
use planbook::calls::{mask_bytes, Calls};
use planbook::plants::{Family, Model, Random, Settled};
use planbook::second::format::{number, together, BookView};
use planbook::second::Fast;
use planbook::sys::LONGEST_INDEX;

/// A plant, its books and the buffers for calls.
pub struct Case {
    pub model: Model,
    pub plant: Vec<u8>,
    /// Made with all moves in service.
    pub book: Vec<u8>,
    /// The same without the highest move.
    rest: Vec<u8>,
    /// The plant's arrows by where they end.
    index: Vec<u8>,
    /// The upper half of the moves, one by one and from the highest down, as 16 masks.
    masks: Vec<u32>,
    /// What the calls write.
    out: Vec<u8>,
    before: Vec<u8>,
    states: Vec<u8>,
    built: Vec<u8>,
    /// What the last call answered.
    kept: u32,
}

impl Case {
    /// Books and index are made by the worklist solver, so that no other is called before it is measured.
    pub fn new(model: Model) -> Case {
        let plant = model.bytes();
        let [mut book, mut rest, out, before] = [(); 4].map(|()| vec![0; model.book_length()]);
        accepted(Fast.make(&plant, model.every_move(), &mut book).number);
        accepted(Fast.make(&plant, model.every_move() & !model.highest_move(), &mut rest).number);
        let masks = (0..16).map(|line| model.highest_move() >> (line * model.moves / 32)).collect();
        let states = vec![0; model.list_length()];
        let [mut index, built] = [(); 2].map(|()| vec![0; LONGEST_INDEX]);
        let answer = Fast.index(&plant, &mut index);
        accepted(answer.number);
        index.truncate(answer.length as usize);
        Case { model, plant, book, rest, index, masks, out, before, states, built, kept: 0 }
    }

    /// How many states the plant has.
    pub fn states(&self) -> u32 {
        number(&self.plant, 0).into()
    }

    /// How many arrows the plant has.
    pub fn arrows(&self) -> u32 {
        number(&self.plant, 6).into()
    }

    /// How many stages the book has, with all moves in service.
    pub fn latest_stage(&self) -> u16 {
        let rows = BookView::read(&self.book, None).expect("a book that was made");
        let kept = (0..rows.states).filter(|&state| rows.is_kept(state));
        kept.map(|state| rows.stage(state)).max().unwrap_or(0)
    }
}

/// The plants of a family: so many, or one if they are all the same.
pub fn models(family: Family, states: u16, plants: u64) -> impl Iterator<Item = Model> {
    let last = if family.is_random() { plants } else { 1 };
    (1..=last).map(move |seed| family.build(states, seed))
}

/// These plants, ready for calls.
pub fn cases_of(family: Family, states: u16, plants: u64) -> Vec<Case> {
    models(family, states, plants).map(Case::new).collect()
}

/// These plants with runs that must settle.
pub fn settled_cases(family: Family, states: u16, plants: u64, way: Settled) -> Vec<Case> {
    let settled = |(seed, model)| Case::new(way.of(model, &mut Random::new(seed)));
    (1..).zip(models(family, states, plants)).map(settled).collect()
}

/// A call on a plant; answers how many states the book keeps that it writes, previews or looks up in.
pub type Call = fn(&dyn Calls, &mut Case) -> u32;

/// The calls that are measured on all plants, with their names.
pub const CALLS: [(&str, Call); 12] = [
    ("make", make),
    ("withdraw", withdraw),
    ("preview", preview),
    ("remake", remake),
    ("return", return_moves),
    ("list", list),
    ("singles", singles),
    ("union", union),
    ("consult", consult),
    ("index", index),
    ("indexed", make_indexed),
    ("w-indexed", withdraw_indexed),
];

/// The calls that are measured on plants that must settle.
pub const SETTLED_CALLS: [(&str, Call); 4] =
    [("make", make), ("withdraw", withdraw), ("indexed", make_indexed), ("w-indexed", withdraw_indexed)];

/// How many places are consulted in a book.
const PLACES: usize = 32;

pub fn make(planner: &dyn Calls, case: &mut Case) -> u32 {
    accepted(planner.make(&case.plant, case.model.every_move(), &mut case.out).number);
    kept_in(&case.out)
}

pub fn withdraw(planner: &dyn Calls, case: &mut Case) -> u32 {
    let Case { model, plant, book, out, states, .. } = case;
    accepted(planner.withdraw(plant, book, model.highest_move(), out, states).number);
    kept_in(out)
}

/// Answers how many states the plant's book keeps, with which it has nothing to do.
fn index(planner: &dyn Calls, case: &mut Case) -> u32 {
    accepted(planner.index(&case.plant, &mut case.built).number);
    kept_in(&case.book)
}

fn make_indexed(planner: &dyn Calls, case: &mut Case) -> u32 {
    let Case { model, plant, index, out, .. } = case;
    accepted(planner.make_indexed(plant, index, model.every_move(), out).number);
    kept_in(out)
}

fn withdraw_indexed(planner: &dyn Calls, case: &mut Case) -> u32 {
    let Case { model, plant, index, book, out, states, .. } = case;
    accepted(planner.withdraw_indexed(plant, index, book, model.highest_move(), out, states).number);
    kept_in(out)
}

fn preview(planner: &dyn Calls, case: &mut Case) -> u32 {
    let Case { model, plant, book, states, .. } = case;
    let cost = planner.preview(plant, book, model.highest_move(), states);
    accepted(cost.number);
    cost.kept
}

fn remake(planner: &dyn Calls, case: &mut Case) -> u32 {
    let Case { model, plant, out, .. } = case;
    accepted(planner.make(plant, model.every_move() & !model.highest_move(), out).number);
    kept_in(out)
}

fn return_moves(planner: &dyn Calls, case: &mut Case) -> u32 {
    let Case { model, plant, rest, out, states, .. } = case;
    accepted(planner.return_moves(plant, rest, model.highest_move(), out, states).number);
    kept_in(out)
}

fn list(planner: &dyn Calls, case: &mut Case) -> u32 {
    let Case { plant, book, masks, out, states, .. } = case;
    accepted(planner.withdraw_list(plant, book, &mask_bytes(masks), out, states).number);
    kept_in(out)
}

fn singles(planner: &dyn Calls, case: &mut Case) -> u32 {
    let Case { plant, book, masks, out, before, states, .. } = case;
    accepted(planner.withdraw(plant, book, masks[0], out, states).number);
    for &mask in &masks[1..] {
        swap(out, before);
        accepted(planner.withdraw(plant, before, mask, out, states).number);
    }
    kept_in(out)
}

fn union(planner: &dyn Calls, case: &mut Case) -> u32 {
    let Case { plant, book, masks, out, states, .. } = case;
    accepted(planner.withdraw(plant, book, together(masks), out, states).number);
    kept_in(out)
}

/// At [`PLACES`] places, evenly spread.
fn consult(planner: &dyn Calls, case: &mut Case) -> u32 {
    let (states, goals) = (case.model.labels.len(), usize::from(case.model.goals));
    for place in 0..PLACES {
        let (state, goal) = (place * states / PLACES, place % goals);
        accepted(black_box(planner.consult(&case.book, state as u32, goal as u32)).number);
    }
    kept_in(&case.book)
}

/// How many states a book keeps.
pub fn kept_in(book: &[u8]) -> u32 {
    number(book, 6).into()
}

pub fn accepted(number: u32) {
    assert_eq!(number, 0, "the calls that are measured are accepted");
}

/// What is found out of a planner on some plants, call by call.
pub struct Figures {
    /// Nanoseconds.
    pub times: Vec<f64>,
    /// How many states are kept in the book that is written or looked up in, in the mean.
    pub kept: Vec<f64>,
}

/// Measures calls on these plants in turn.
pub fn time_calls(planner: &dyn Calls, calls: &[(&str, Call)], cases: &mut [Case]) -> Figures {
    let (mut times, mut kept) = (Vec::new(), Vec::new());
    for &(name, call) in calls {
        let time = mean_in_turn(cases, |case| case.kept = call(planner, case));
        times.push(time / times_called(name) as f64);
        kept.push(mean(cases.iter().map(|case| case.kept)));
    }
    Figures { times, kept }
}

/// How often a call of [`CALLS`] is made on each plant.
fn times_called(name: &str) -> usize {
    match name {
        "consult" => PLACES,
        _ => 1,
    }
}

/// The mean of some numbers.
pub fn mean(numbers: impl ExactSizeIterator<Item = u32>) -> f64 {
    let count = numbers.len() as f64;
    numbers.map(f64::from).sum::<f64>() / count
}
