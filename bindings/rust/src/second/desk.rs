//! Second desks for request (xii), written from documents 01 and 02: [`Plain`], in their words over what
//! [`mod@super::format`] reads, and [`Fast`], which looks at the bytes as they are lent and is what the library's speed
//! is held against. They share nothing with each other, and consult no planner.

use super::format::{Arrow, BookView, Plant};
use super::require;
use crate::calls::{Desks, Held};
use crate::sys::Desk;
use crate::Refusal;

/// The answer to a report that is refused with a number: what is held stays.
fn left(number: u32, held: Held) -> Desk {
    Desk { state: held.state, goal: held.goal, ..Desk::refused(number) }
}

/// A desk in the documents' words.
#[derive(Clone, Copy, Debug)]
pub struct Plain;

impl Desks for Plain {
    fn name(&self) -> &'static str {
        "plain desk"
    }

    fn start(&self, plant: &[u8], book: &[u8], state: u32) -> Desk {
        start(plant, book, state).unwrap_or_else(|refusal| Desk::refused(refusal.number()))
    }

    fn report(&self, plant: &[u8], book: &[u8], held: Held, reported: u32) -> Desk {
        report(plant, book, held, reported).unwrap_or_else(|refusal| left(refusal.number(), held))
    }
}

fn start(plant: &[u8], book: &[u8], state: u32) -> Result<Desk, Refusal> {
    let plant = Plant::read(plant)?;
    let book = BookView::read(book, Some(&plant))?;
    Ok(shown(&book, below(state, book.states)?, 0))
}

fn report(plant: &[u8], book: &[u8], held: Held, reported: u32) -> Result<Desk, Refusal> {
    let plant = Plant::read(plant)?;
    let book = BookView::read(book, Some(&plant))?;
    let (state, goal, end) =
        (below(held.state, book.states)?, below(held.goal, book.goals)?, below(reported, book.states)?);
    require(book.is_kept(state), Refusal::Report)?;
    let sought = arrived_at(&book, state, goal);
    let (_, action) = book.entry(state, sought);
    let arrow = Arrow { from: state as u16, action, to: end as u16 };
    require(plant.arrows.contains(&arrow), Refusal::Report)?;
    Ok(shown(&book, end, sought))
}

/// The number, if it is below a count.
fn below(number: u32, count: usize) -> Result<usize, Refusal> {
    require((number as usize) < count, Refusal::OutOfBook)?;
    Ok(number as usize)
}

/// What is shown in a state in which a goal is sought, and what is held there.
fn shown(book: &BookView, state: usize, sought: usize) -> Desk {
    if !book.is_kept(state) {
        return Desk { lost: 1, state: state as u32, goal: sought as u32, ..Desk::default() };
    }
    let seek = arrived_at(book, state, sought);
    let (wait, action) = book.entry(state, seek);
    let (state, goal) = (state as u32, seek as u32);
    Desk { number: 0, lost: 0, action: action.into(), wait: wait.into(), seek: goal, state, goal }
}

/// Passes the goals that a kept state serves, one after another and each once at the most; after all of them stands the
/// one sought again.
fn arrived_at(book: &BookView, state: usize, sought: usize) -> usize {
    let mut goal = sought;
    for _ in 0..book.goals {
        if book.entry(state, goal).0 > 0 {
            break;
        }
        goal = if goal + 1 < book.goals { goal + 1 } else { 0 };
    }
    goal
}

/// A desk that is written for speed: it copies nothing, looks at each number of the plant and of the book once and
/// finds the arrow by bisection.
#[derive(Clone, Copy, Debug)]
pub struct Fast;

impl Desks for Fast {
    fn name(&self) -> &'static str {
        "fast desk"
    }

    fn start(&self, plant: &[u8], book: &[u8], state: u32) -> Desk {
        match Lent::check(plant, book) {
            Ok(lent) if state < lent.states => lent.shown(state, 0),
            Ok(_) => Desk::refused(8),
            Err(number) => Desk::refused(number),
        }
    }

    fn report(&self, plant: &[u8], book: &[u8], held: Held, reported: u32) -> Desk {
        let lent = match Lent::check(plant, book) {
            Ok(lent) => lent,
            Err(number) => return left(number, held),
        };
        if held.state >= lent.states || held.goal >= lent.goals || reported >= lent.states {
            return left(8, held);
        }
        let sought = lent.arrive(held.state, held.goal);
        let entry = lent.entry(held.state, sought);
        // No arrow has the move that stands in a lost row.
        match lent.has_arrow([held.state, entry >> 16, reported]) {
            true => lent.shown(reported, sought),
            false => left(13, held),
        }
    }
}

/// An entry of a lost row.
const LOST: u32 = u32::MAX;

/// A plant's arrows and a book's rows, lent together and found without fault.
struct Lent<'a> {
    states: u32,
    goals: u32,
    arrows: &'a [u8],
    rows: &'a [u8],
    /// How many bytes a row has, and how many of them come before its entries.
    row: usize,
    opening: usize,
}

impl<'a> Lent<'a> {
    /// Answers the number of the refusal otherwise.
    fn check(plant: &'a [u8], book: &'a [u8]) -> Result<Lent<'a>, u32> {
        let (header, arrows) = check_plant(plant)?;
        let [states, moves, goals, .., settles] = header;
        let opening = 2 * settles as usize;
        let row = opening + 4 * goals as usize;
        let length = 16 + row * states as usize;
        let numbers = numbers_of(book).ok_or(4u32)?;
        let mask = numbers[4] | numbers[5] << 16;
        let alike = numbers[..3] == [states, moves, goals] && numbers[6..] == [16, length as u32];
        if !alike || book.len() != length || u64::from(mask) >> moves != 0 {
            return Err(4);
        }
        let lent = Lent { states, goals, arrows, rows: &book[16..], row, opening };
        match lent.count_kept(mask) {
            Some(kept) if kept == numbers[3] => Ok(lent),
            _ => Err(5),
        }
    }

    /// How many rows are not lost; none if one is neither lost nor sound.
    fn count_kept(&self, mask: u32) -> Option<u32> {
        let (mut is_fine, mut kept) = (true, 0);
        for row in self.rows.chunks_exact(self.row) {
            let (stage, entries) = row.split_at(self.opening);
            let (mut all, mut some, mut actions) = (LOST, 0, 0);
            for entry in entries.chunks_exact(4).map(|entry| four(entry, 0)) {
                // Bits above those of a wait up to 1,023 and a move up to 31 are told from all entries at once.
                all &= entry;
                some |= entry;
                actions |= 1 << (entry >> 16 & 31);
            }
            let is_lost = all == LOST;
            let is_sound = (some & 0xffe0_fc00 == 0) & (actions & !mask == 0);
            is_fine &= is_lost | is_sound;
            kept += u32::from(!is_lost);
            if self.opening != 0 {
                let stage = two(stage, 0);
                is_fine &= if is_lost { stage == 0xffff } else { stage.wrapping_sub(1) < self.states };
            }
        }
        is_fine.then_some(kept)
    }

    /// A state's wait for a goal and, above bit 15, its move.
    fn entry(&self, state: u32, goal: u32) -> u32 {
        four(self.rows, self.row * state as usize + self.opening + 4 * goal as usize)
    }

    /// The goal arrived at; any in a lost state.
    fn arrive(&self, state: u32, sought: u32) -> u32 {
        let is_served = |goal: u32| u32::from(self.entry(state, goal) & 0xffff == 0) << goal;
        let served: u32 = (0..self.goals).map(is_served).sum();
        // The goals that are not served, all of them twice in turn, from the one sought on.
        let left = !served & ((1 << self.goals) - 1);
        let in_turn = (left | left << self.goals) >> sought;
        match in_turn {
            0 => sought,
            _ => (sought + in_turn.trailing_zeros()) % self.goals,
        }
    }

    fn shown(&self, state: u32, sought: u32) -> Desk {
        let goal = self.arrive(state, sought);
        match self.entry(state, goal) {
            LOST => Desk { lost: 1, state, goal: sought, ..Desk::default() },
            entry => Desk { number: 0, lost: 0, action: entry >> 16, wait: entry & 0xffff, seek: goal, state, goal },
        }
    }

    fn has_arrow(&self, arrow: [u32; 3]) -> bool {
        let wanted = rank(arrow);
        let (mut low, mut high) = (0, self.arrows.len() / 6);
        while low < high {
            let middle = (low + high) / 2;
            match rank(arrow_at(self.arrows, 6 * middle)) {
                here if here < wanted => low = middle + 1,
                here if here > wanted => high = middle,
                _ => return true,
            }
        }
        false
    }
}

/// The numbers of a plant's header and its arrows; the number of the refusal otherwise.
fn check_plant(plant: &[u8]) -> Result<([u32; 8], &[u8]), u32> {
    let header = numbers_of(plant).ok_or(1u32)?;
    let [states, moves, goals, count, labels_at, arrows_at, length, last] = header;
    let in_range = (1..=1024).contains(&states) && (1..=32).contains(&moves) && (1..=8).contains(&goals);
    let places = labels_at == 16 && arrows_at == 16 + 2 * states && length == arrows_at + 6 * count;
    if !in_range || count > 8192 || !places || last > 1 || plant.len() != length as usize {
        return Err(1);
    }
    let (labels, arrows) = plant[16..].split_at(2 * states as usize);
    let bits = ((2 << goals) - 1) | (last << 9);
    if labels.chunks_exact(2).fold(0, |all, label| all | two(label, 0)) & !bits != 0 {
        return Err(2);
    }
    match are_in_order(arrows, states, moves) {
        true => Ok((header, arrows)),
        false => Err(3),
    }
}

/// Whether arrows have states and moves below these counts and ascend: the last one is then that from the highest state.
fn are_in_order(arrows: &[u8], states: u32, moves: u32) -> bool {
    let (mut next, mut most_action, mut most_to, mut falls) = (0, 0, 0, false);
    for arrow in arrows.chunks_exact(6) {
        let [from, action, to] = arrow_at(arrow, 0);
        let rank = rank([from, action, to]);
        falls |= rank < next;
        next = rank + 1;
        most_action = most_action.max(action);
        most_to = most_to.max(to);
    }
    let last_from = arrows.chunks_exact(6).next_back().map_or(0, |arrow| two(arrow, 0));
    arrows.is_empty() || !falls && last_from < states && most_action < moves && most_to < states
}

/// The eight numbers of a header, if there are as many bytes.
fn numbers_of(bytes: &[u8]) -> Option<[u32; 8]> {
    (bytes.len() >= 16).then(|| std::array::from_fn(|at| two(bytes, 2 * at)))
}

/// From, move and to as one number, in the order of arrows.
fn rank([from, action, to]: [u32; 3]) -> u64 {
    u64::from(from) << 32 | u64::from(action) << 16 | u64::from(to)
}

fn arrow_at(bytes: &[u8], at: usize) -> [u32; 3] {
    [two(bytes, at), two(bytes, at + 2), two(bytes, at + 4)]
}

/// The number of two bytes at a place.
fn two(bytes: &[u8], at: usize) -> u32 {
    u16::from_le_bytes([bytes[at], bytes[at + 1]]).into()
}

/// The number of four bytes at a place.
fn four(bytes: &[u8], at: usize) -> u32 {
    u32::from_le_bytes([bytes[at], bytes[at + 1], bytes[at + 2], bytes[at + 3]])
}
