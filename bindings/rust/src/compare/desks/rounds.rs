//! Starts and reports for desks: random ones, and all of some kinds.

use super::walks::Walk;
use super::{kept_states, DeskComparison};
use crate::calls::{mask_bytes, Calls, Held};
use crate::compare::in_service;
use crate::compare::rounds::indexes::index_of;
use crate::compare::rounds::lists::masks_in_turn;
use crate::compare::rounds::returns::moves_back;
use crate::compare::rounds::{any_plant, both_sorts, change_sort, damage, few_moves, filled, invent_book, m9_book};
use crate::compare::rounds::{many_moves, of_length, tiny_plant, turned, with_one_changed};
use crate::plants::{self, bytes_of, Family, Model, Random, FAMILIES, WAYS_TO_SETTLE};
use crate::second::format::{BookView, Plant};
use crate::sys::{Answer, Desk, LONGEST_LIST};

/// A kind of random comparisons.
pub type Round = fn(&mut DeskComparison, &mut Random);

/// The random rounds, with their names.
pub const RANDOM_ROUNDS: [(&str, Round); 7] = [
    ("walks", walks),
    ("mistakes", mistakes),
    ("books changed on the way", changed_books),
    ("invented books", invented_books),
    ("books of other plants", other_books),
    ("damaged plants and books", damaged),
    ("random headers", random_headers),
];

/// The rounds that leave nothing to chance.
pub const EXHAUSTIVE_ROUNDS: [fn(&mut DeskComparison); 7] =
    [every_place, every_number, every_tiny_book, every_byte, every_length, every_combination_of_refusals, largest];

/// The most reports of a walk in the random rounds.
const STEPS: usize = 120;

/// A plant and the book that stands for it, as a planner writes it.
struct Standing<'a> {
    planner: &'a dyn Calls,
    model: Model,
    plant: Vec<u8>,
    book: Vec<u8>,
    /// Which call wrote it; see [`super::walks::Walked::ways`].
    way: usize,
}

impl<'a> Standing<'a> {
    /// Makes it with many moves in service, sometimes by an index.
    fn make(planner: &'a dyn Calls, model: Model, random: &mut Random) -> Standing<'a> {
        let (plant, mask, way) = (model.bytes(), many_moves(&model, random), random.below(2));
        let mut book = vec![0; model.book_length()];
        let answer = match way {
            0 => planner.make(&plant, mask, &mut book),
            _ => planner.make_indexed(&plant, &index_of(&plant), mask, &mut book),
        };
        accepted(answer);
        Standing { planner, model, plant, book, way }
    }

    /// The same, mostly with some states that are kept, and with some calls after it.
    fn any(planner: &'a dyn Calls, plant: fn(&mut Random) -> Model, random: &mut Random) -> Standing<'a> {
        let mut standing = Standing::make(planner, plant(random), random);
        for _ in 0..3 {
            if standing.kept().is_empty() {
                standing = Standing::make(planner, plant(random), random);
            }
        }
        for _ in 0..random.below(4) {
            standing.call(random);
        }
        standing
    }

    /// Withdraws moves, by the index, by a list or without, or returns them.
    fn call(&mut self, random: &mut Random) {
        let Standing { planner, model, plant, book, .. } = self;
        let (mut out, mut list) = (vec![0; book.len()], [0; LONGEST_LIST]);
        let (way, few) = (random.from_to(2, 5), few_moves(model, random));
        let answer = match way {
            2 => planner.withdraw(plant, book, few, &mut out, &mut list),
            3 => planner.withdraw_indexed(plant, &index_of(plant), book, few, &mut out, &mut list),
            4 => {
                let masks = mask_bytes(&masks_in_turn(random.from_to(0, 3), model, random));
                planner.withdraw_list(plant, book, &masks, &mut out, &mut list)
            }
            _ => {
                let back = moves_back(model, in_service(book), random);
                planner.return_moves(plant, book, back, &mut out, &mut list)
            }
        };
        accepted(answer);
        (self.book, self.way) = (out, way);
    }

    fn kept(&self) -> Vec<usize> {
        kept_states(&self.rows())
    }

    fn rows(&self) -> BookView<'_> {
        BookView::read(&self.book, None).expect("a book")
    }
}

fn accepted(answer: Answer) {
    assert_eq!(answer.number, 0, "a book is written");
}

/// A plant that mostly need not settle.
fn mostly_free(random: &mut Random) -> Model {
    match random.below(8) {
        0 => any_plant(random),
        1 => tiny_plant(random),
        2..=4 => plants::tiny(random),
        5 => FAMILIES[random.below(FAMILIES.len())].build(random.from_to(1, 40) as u16, random.bits()),
        _ => plants::any_size(random),
    }
}

/// A plant of either sort, mostly tiny.
fn any_sort(random: &mut Random) -> Model {
    match random.once_in(6) {
        true => any_plant(random),
        false => tiny_plant(random),
    }
}

/// One of some things, if there are any.
fn any_of<T: Copy>(things: &[T], random: &mut Random) -> Option<T> {
    things.get(random.below(things.len().max(1))).copied()
}

/// Walks from kept states by books that were written for the plant, and a start in a lost state.
fn walks(comparison: &mut DeskComparison, random: &mut Random) {
    let standing = Standing::any(comparison.planner, mostly_free, random);
    let Standing { plant, book, .. } = &standing;
    let kept = standing.kept();
    for _ in 0..2 {
        if let Some(start) = any_of(&kept, random) {
            Walk { plant, book, start, steps: STEPS, farthest: random.once_in(2) }.go(comparison, random);
            comparison.walks.ways[standing.way] += 1;
        }
    }
    let lost = (0..standing.model.labels.len()).find(|state| !kept.contains(state));
    if let Some(state) = lost {
        let Desk { state, goal, .. } = comparison.start(plant, book, state as u32);
        comparison.report(plant, book, Held { state, goal }, random.below(standing.model.labels.len()) as u32);
    }
}

/// Walks in large plants of a family, by the book made with all moves in service and the one without the highest.
pub fn walk_family(comparison: &mut DeskComparison, family: Family, states: u16, steps: usize) {
    let random = &mut Random::new(states.into());
    let settled = WAYS_TO_SETTLE[random.below(3)].of(family.build(states, 1), random);
    for model in [family.build(states, 1), settled] {
        let (plant, mut book, mut rest) = (model.bytes(), vec![0; model.book_length()], vec![0; model.book_length()]);
        accepted(comparison.planner.make(&plant, model.every_move(), &mut book));
        let mut list = [0; LONGEST_LIST];
        accepted(comparison.planner.withdraw(&plant, &book, model.highest_move(), &mut rest, &mut list));
        for (book, farthest) in [(&book, true), (&book, false), (&rest, true)] {
            let kept = kept_states(&BookView::read(book, None).expect("a book"));
            if let Some(start) = any_of(&kept, random) {
                Walk { plant: &plant, book, start, steps, farthest }.go(comparison, random);
            }
        }
    }
}

/// A number below a count, or once in a while one out of range: just so, by far, or so that its low bits are in it.
fn or_far(count: usize, random: &mut Random) -> u32 {
    let number = random.below(count) as u32;
    match random.below(16) {
        0 => count as u32 + random.below(3) as u32,
        1 => number | [1 << 8, 1 << 16, 1 << 24, 1 << 31][random.below(4)],
        2 => [u32::MAX, random.bits() as u32][random.below(2)],
        _ => number,
    }
}

/// Something to hold, mostly in range.
fn any_held(model: &Model, random: &mut Random) -> Held {
    Held { state: or_far(model.labels.len(), random), goal: or_far(model.goals.into(), random) }
}

/// A state to report when this is held: an end of the move that consult gives, of any arrow from there, or any.
fn any_report(planner: &dyn Calls, plant: &[u8], book: &[u8], held: Held, random: &mut Random) -> u32 {
    let Ok(read) = Plant::read(plant) else {
        return or_far(8, random);
    };
    let action = planner.consult(book, held.state, held.goal).action as u16;
    let from_there = read.arrows.iter().filter(|arrow| u32::from(arrow.from) == held.state);
    let is_given = random.once_in(2);
    let ends: Vec<u16> = from_there.filter(|arrow| !is_given || arrow.action == action).map(|arrow| arrow.to).collect();
    match any_of(&ends, random) {
        Some(end) if !random.once_in(5) => end.into(),
        _ => or_far(read.states, random),
    }
}

/// Tells a desk so many states, right and wrong ones, from any start on; what is held is what came back last.
fn tell(comparison: &mut DeskComparison, model: &Model, [plant, book]: [&[u8]; 2], times: usize, random: &mut Random) {
    let Desk { state, goal, .. } = comparison.start(plant, book, or_far(model.labels.len(), random));
    let mut held = Held { state, goal };
    for _ in 0..times {
        let reported = any_report(comparison.planner, plant, book, held, random);
        let Desk { number, lost, state, goal, .. } = comparison.report(plant, book, held, reported);
        held = match (number, lost) {
            (0, 0) => Held { state, goal },
            (0, _) => {
                comparison.report(plant, book, Held { state, goal }, reported);
                any_held(model, random)
            }
            _ if random.once_in(2) => any_held(model, random),
            _ => Held { state, goal },
        };
    }
}

/// Right and wrong reports in books that were written for the plant.
fn mistakes(comparison: &mut DeskComparison, random: &mut Random) {
    let standing = Standing::any(comparison.planner, any_sort, random);
    tell(comparison, &standing.model, [&standing.plant, &standing.book], 16, random);
}

/// Moves are withdrawn or come back between two reports: the state that is reported may have followed the move of the
/// old book or that of the new one.
fn changed_books(comparison: &mut DeskComparison, random: &mut Random) {
    let mut standing = Standing::any(comparison.planner, any_sort, random);
    let start = any_of(&standing.kept(), random).unwrap_or(0);
    let mut desk = comparison.start(&standing.plant, &standing.book, start as u32);
    for _ in 0..8 {
        let held = Held { state: desk.state, goal: desk.goal };
        let by_old = any_report(standing.planner, &standing.plant, &standing.book, held, random);
        if random.once_in(2) {
            standing.call(random);
        }
        let Standing { plant, book, .. } = &standing;
        let by_new = any_report(standing.planner, plant, book, held, random);
        for reported in [by_old, by_new] {
            let next = comparison.report(plant, book, held, reported);
            desk = if next.number == 0 { next } else { desk };
        }
    }
}

/// Books that nobody made, in which anything may be held.
fn invented_books(comparison: &mut DeskComparison, random: &mut Random) {
    let model = any_sort(random);
    let (plant, book) = (model.bytes(), invent_book(&model, random));
    tell(comparison, &model, [&plant, &book], 8, random);
    for _ in 0..8 {
        let held = any_held(&model, random);
        let reported = any_report(comparison.planner, &plant, &book, held, random);
        comparison.report(&plant, &book, held, reported);
    }
}

/// Books of plants with the same counts, with others, and of the other sort.
fn other_books(comparison: &mut DeskComparison, random: &mut Random) {
    let model = any_sort(random);
    let plant = model.bytes();
    let other_sort = match model.settles {
        true => {
            Model { settles: false, labels: model.labels.iter().map(|label| label & 0x1ff).collect(), ..model.clone() }
        }
        false => model.clone().settled(|_| true),
    };
    for other in [turned(&model), tiny_plant(random), other_sort] {
        let book = Standing::make(comparison.planner, other, random).book;
        tell(comparison, &model, [&plant, &book], 4, random);
    }
}

/// Plants and books with some bytes damaged.
fn damaged(comparison: &mut DeskComparison, random: &mut Random) {
    let model = tiny_plant(random);
    let standing = Standing::make(comparison.planner, model.clone(), random);
    for _ in 0..4 {
        let (mut plant, mut book) = (standing.plant.clone(), standing.book.clone());
        match random.below(8) {
            0..=1 => change_sort(&mut plant, random),
            2..=3 => damage(&mut plant, random),
            4 => {
                damage(&mut plant, random);
                damage(&mut book, random);
            }
            _ => damage(&mut book, random),
        }
        tell(comparison, &model, [&plant, &book], 3, random);
    }
}

/// Bytes whose headers are random, with counts near the edges of their ranges and places that mostly fit them.
fn random_headers(comparison: &mut DeskComparison, random: &mut Random) {
    let near = |random: &mut Random, most: usize| match random.below(16) {
        0 => random.below(1 << 16),
        1 => random.below(3),
        2..=4 => most + 1 - random.below(3),
        _ => random.from_to(1, most.min(64)),
    };
    let (states, moves, goals) = (near(random, 1024), near(random, 32), near(random, 8));
    let settled = random.once_in(2);
    let settles = [settled, settled != random.once_in(8)];
    let stages = if settles[1] { 2 * states } else { 0 };
    let [plant_length, book_length] =
        [16 + 2 * states, 16 + stages + 4 * states * goals].map(|length| length % (1 << 16));
    let mut header = |numbers: [usize; 8]| {
        bytes_of(&numbers.map(|number| if random.once_in(40) { random.below(1 << 16) } else { number } as u16))
    };
    let mut plant = header([states, moves, goals, 0, 16, plant_length, plant_length, settles[0].into()]);
    let mut book = header([states, moves, goals, 0, 0, 0, 16, book_length]);
    plant.resize(plant_length.max(16), 0);
    book.resize(book_length.max(16), 0xff);
    for _ in 0..2 {
        comparison.start(&plant, &book, random.below(1025) as u32);
        let held = Held { state: random.below(1025) as u32, goal: random.below(9) as u32 };
        comparison.report(&plant, &book, held, random.below(1025) as u32);
        plant.truncate(random.below(plant.len() + 1));
        book.truncate(random.below(book.len() + 1));
    }
}

/// A small plant of either sort with its book, made with all moves in service.
fn small(planner: &dyn Calls) -> [(Model, Vec<u8>, Vec<u8>); 2] {
    both_sorts().map(|model| {
        let book = made(planner, &model, model.every_move());
        let plant = model.bytes();
        (model, plant, book)
    })
}

fn made(planner: &dyn Calls, model: &Model, mask: u32) -> Vec<u8> {
    let mut book = vec![0; model.book_length()];
    accepted(planner.make(&model.bytes(), mask, &mut book));
    book
}

/// Every start, and every report with everything that may be held, and one more of each.
fn everywhere(comparison: &mut DeskComparison, model: &Model, plant: &[u8], book: &[u8]) {
    let states = 0..=model.labels.len() as u32;
    for state in states.clone() {
        comparison.start(plant, book, state);
        for goal in 0..=u32::from(model.goals) {
            for reported in states.clone() {
                comparison.report(plant, book, Held { state, goal }, reported);
            }
        }
    }
}

/// A small plant of either sort with its books for every mask, and with some that nobody made.
fn every_place(comparison: &mut DeskComparison) {
    for (model, plant, book) in small(comparison.planner) {
        for mask in 0..=model.every_move() {
            let book = made(comparison.planner, &model, mask);
            everywhere(comparison, &model, &plant, &book);
        }
        for seed in 0..200 {
            let book = invent_book(&model, &mut Random::new(seed));
            everywhere(comparison, &model, &plant, &book);
        }
        if !model.settles {
            everywhere(comparison, &model, &plant, &m9_book(&book));
        }
    }
}

/// Numbers of any size in the place of each state and of the goal.
fn every_number(comparison: &mut DeskComparison) {
    let far = [1 << 7, 1 << 8, 1 << 15, 1 << 16, 1 << 24, 1 << 30, 1 << 31, u32::MAX - 5];
    let numbers: Vec<u32> = (0..6).chain(far.into_iter().flat_map(|far| far..=far + 5)).collect();
    for (_, plant, book) in small(comparison.planner) {
        for &number in &numbers {
            comparison.start(&plant, &book, number);
            for other in [0, 1, 2, 3, 4, u32::MAX] {
                for (state, goal, reported) in [(number, 0, other), (other, number, 1), (other, 1, number)] {
                    comparison.report(&plant, &book, Held { state, goal }, reported);
                }
            }
        }
    }
}

/// Two states, two moves and two goals: some plants with all books of waits 0 and 1, lost rows included.
fn every_tiny_book(comparison: &mut DeskComparison) {
    let row = |number: u16| match number {
        16 => [u16::MAX; 4],
        _ => [number & 1, number >> 1 & 1, number >> 2 & 1, number >> 3],
    };
    let place = |number: u16| [number & 1, number >> 1 & 1, number >> 2];
    for arrows in (0..256u16).step_by(15) {
        let arrows = (0..8).filter(|number| arrows >> number & 1 != 0).map(place).collect();
        let model = Model { moves: 2, goals: 2, settles: false, labels: vec![7, 1], arrows };
        let plant = model.bytes();
        for (first, second) in (0..17).flat_map(|first| (0..17).map(move |second| (first, second))) {
            let kept = u16::from(first != 16) + u16::from(second != 16);
            let header = [2, 2, 2, kept, 3, 0, 16, 32];
            let book = bytes_of(header.iter().chain(&row(first)).chain(&row(second)));
            for (state, goal) in [(0, 0), (0, 1), (1, 0), (1, 1)] {
                comparison.start(&plant, &book, state);
                for reported in 0..2 {
                    comparison.report(&plant, &book, Held { state, goal }, reported);
                }
            }
        }
    }
}

/// Starts and reports in every state, with a held goal that is passed and one that is not.
fn look(comparison: &mut DeskComparison, model: &Model, plant: &[u8], book: &[u8]) {
    for state in 0..model.labels.len() as u32 {
        comparison.start(plant, book, state);
        for goal in 0..2 {
            let reported = (state + 1) % model.labels.len() as u32;
            comparison.report(plant, book, Held { state, goal }, reported);
        }
    }
}

/// Every byte of a small plant of either sort and of its book changed to every other value.
fn every_byte(comparison: &mut DeskComparison) {
    for (model, plant, book) in small(comparison.planner) {
        for plant in with_one_changed(&plant) {
            look(comparison, &model, &plant, &book);
        }
        for book in with_one_changed(&book) {
            look(comparison, &model, &plant, &book);
        }
    }
}

/// A small plant of either sort and its book cut short everywhere, and with bytes added.
fn every_length(comparison: &mut DeskComparison) {
    for (model, plant, book) in small(comparison.planner) {
        for length in 0..plant.len() + 20 {
            look(comparison, &model, &of_length(&plant, length), &book);
        }
        for length in 0..book.len() + 20 {
            look(comparison, &model, &plant, &of_length(&book, length));
        }
    }
}

/// The faults of a call, in the order of the checks, and what each is refused with. Two can be put in for 13.
const FAULTS: [u32; 10] = [1, 2, 3, 4, 5, 8, 8, 8, 13, 13];

/// P with all faults put in that there can be together: the first that applies is returned, and what is held stays.
fn every_combination_of_refusals(comparison: &mut DeskComparison) {
    let [(_, plant, book), _] = small(comparison.planner);
    for faults in 0..1u32 << FAULTS.len() {
        let (mut plant, mut book) = (plant.clone(), book.clone());
        let (mut held, mut reported) = (Held { state: 0, goal: 1 }, 1);
        for fault in (0..FAULTS.len()).filter(|fault| faults >> fault & 1 != 0).rev() {
            match fault {
                0 => plant[14] = 2,
                1 => plant[17] |= 0x80,
                2 => plant[71] = 0xff,
                3 => book[12] = 15,
                4 => book[6] ^= 1,
                5 => held.state = 4,
                6 => held.goal = 2,
                7 => reported = 4,
                8 => held.state = 3, // lost
                _ => reported = 2,   // the end of another move
            }
        }
        let told = FAULTS.iter().zip(0..).find(|(_, fault)| faults >> fault & 1 != 0).map_or(0, |(number, _)| *number);
        let desk = comparison.report(&plant, &book, held, reported);
        assert_eq!(desk.number, told, "the first that applies of {faults:#012b}");
        let start = comparison.start(&plant, &book, held.state).number;
        let told = if matches!(told, 1..=5) { told } else { u32::from(held.state == 4) * 8 };
        assert_eq!(start, told, "the first that applies of {faults:#012b}");
    }
}

/// The largest plants of either sort, and those just past each limit.
fn largest(comparison: &mut DeskComparison) {
    let sizes = [(1024, 32, 8, 8192), (1025, 32, 8, 8192), (1024, 33, 8, 8192), (1024, 32, 9, 8192)];
    for (states, moves, goals, arrows) in sizes.into_iter().chain([(1024, 32, 8, 8193), (1, 1, 1, 0), (1, 1, 1, 1)]) {
        let model = filled(states, moves, goals, arrows);
        for model in [model.clone(), model.settled(|_| true)] {
            let (plant, mut book) = (model.bytes(), vec![0xff; 1 << 16]);
            let mask = u32::MAX >> (32 - moves.min(32));
            let length = comparison.planner.make(&plant, mask, &mut book).length;
            book.truncate(length as usize);
            for state in [0, 1, 511, 1023, 1024, 1025] {
                let Desk { state, goal, .. } = comparison.start(&plant, &book, state);
                for reported in [0, 1, state + 1, 1023, 1024] {
                    comparison.report(&plant, &book, Held { state, goal }, reported);
                    comparison.report(&plant, &book, Held { state, goal: 7 }, reported);
                }
            }
        }
    }
    let model = plants::longest();
    let (plant, book) = (model.bytes(), made(comparison.planner, &model, model.every_move()));
    for reported in (0..1024).step_by(31) {
        comparison.report(&plant, &book, Held { state: 1023, goal: 0 }, reported);
        comparison.report(&plant, &book, Held { state: reported, goal: 7 }, reported + 1);
    }
}
