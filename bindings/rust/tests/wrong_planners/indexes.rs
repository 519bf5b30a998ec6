//! Planners that are wrong by an index alone: in what they build, in what they take for the index of a plant, in where
//! 10 stands among the refusals, or in what they write by an index.

use super::{AllLost, Remake};
use planbook::calls::Calls;
use planbook::plants::bytes_of;
use planbook::second::format::{index_bytes, number, Arrow, Plant};
use planbook::second::{Fast, Solve, Table};
use planbook::sys::{Advice, Answer, Cost, Mask, Part};

/// What a withdrawal answers and writes: from the plant, the book, the mask and the two buffers.
type Withdraw = fn(&[u8], &[u8], u32, &mut [u8], &mut [u8]) -> Answer;

/// A planner with a way of its own to build an index and to answer that, to take bytes for one, to refuse others, and
/// to make and withdraw by it; all else is right.
pub struct ByIndex {
    name: &'static str,
    /// What is built, of the plant and its right index.
    build: fn(&Plant, Vec<u8>) -> Vec<u8>,
    /// What becomes of the answer and the buffer then, of a plant with so many arrows.
    answer: fn(Answer, &mut [u8], u16) -> Answer,
    /// Whether bytes are taken for the index of a plant, from what is built and what is lent.
    suits: fn(&Plant, &[u8], &[u8]) -> bool,
    /// Whether a refusal with this number comes before 10.
    before: fn(u32) -> bool,
    make: fn(&[u8], u32, &mut [u8]) -> Answer,
    withdraw: Withdraw,
}

/// The rules of request (viii).
pub const RIGHT: ByIndex = ByIndex {
    name: "right by index",
    build: |_, right| right,
    answer: |answer, _, _| answer,
    suits: |_, built, lent| built == lent,
    before: |number| number <= 3,
    make: |plant, mask, book| Fast.make(plant, mask, book),
    withdraw: |plant, book, mask, out, drops| Fast.withdraw(plant, book, mask, out, drops),
};

/// The numbers of an index, header and arrows.
fn numbers(index: &[u8]) -> Vec<u16> {
    (0..index.len() / 2).map(|at| number(index, 2 * at)).collect()
}

/// An index with its arrows in the order of some rank.
fn ranked<K: Ord>(plant: &Plant, index: &[u8], rank: impl Fn(u16, &Arrow) -> K) -> Vec<u8> {
    let mut numbers = numbers(index);
    numbers[4..].sort_by_key(|&arrow| rank(arrow, &plant.arrows[usize::from(arrow)]));
    bytes_of(&numbers)
}

/// An index with one number of its header changed.
fn with_header(index: Vec<u8>, at: usize, value: u16) -> Vec<u8> {
    let mut numbers = numbers(&index);
    numbers[at] = value;
    bytes_of(&numbers)
}

/// For each arrow of an index its place among them.
fn places(index: &[u8]) -> Vec<u8> {
    let mut numbers = numbers(index);
    for (place, arrow) in (0..).zip(numbers.split_off(4)) {
        let at = 4 + usize::from(arrow);
        numbers.resize(numbers.len().max(at + 1), 0);
        numbers[at] = place;
    }
    bytes_of(&numbers)
}

/// The header of an index and what is read of its arrows, from their numbers; nothing if they are cut.
fn read_as<T>(index: &[u8], read: impl Fn(u16) -> T) -> Option<(&[u8], Vec<T>)> {
    let (header, arrows) = (index.get(..8)?, &index[8..]);
    (arrows.len() % 2 == 0).then(|| (header, numbers(arrows).into_iter().map(read).collect()))
}

/// Planners that build another index, and take what they build for one, or answer otherwise when they build it.
const WRONG_BUILDERS: [ByIndex; 13] = [
    ByIndex { name: "arrows by where they begin", build: |plant, right| ranked(plant, &right, |at, _| at), ..RIGHT },
    ByIndex {
        name: "ties downward",
        build: |plant, right| ranked(plant, &right, |at, arrow| (arrow.to, u16::MAX - at)),
        ..RIGHT
    },
    ByIndex {
        name: "by falling end",
        build: |plant, right| ranked(plant, &right, |at, arrow| (u16::MAX - arrow.to, at)),
        ..RIGHT
    },
    ByIndex {
        name: "ties by move",
        build: |plant, right| ranked(plant, &right, |at, arrow| (arrow.to, arrow.action, at)),
        ..RIGHT
    },
    ByIndex { name: "places for numbers", build: |_, right| places(&right), ..RIGHT },
    ByIndex {
        name: "arrows numbered from 1",
        build: |_, right| {
            let mut numbers = numbers(&right);
            numbers[4..].iter_mut().for_each(|arrow| *arrow += 1);
            bytes_of(&numbers)
        },
        ..RIGHT
    },
    ByIndex {
        name: "numbers high byte first",
        build: |_, mut right| {
            right.chunks_exact_mut(2).for_each(|pair| pair.reverse());
            right
        },
        ..RIGHT
    },
    ByIndex { name: "no offset", build: |_, right| with_header(right, 2, 0), ..RIGHT },
    ByIndex {
        name: "the length of the arrows alone",
        build: |_, right| {
            let length = right.len() as u16 - 8;
            with_header(right, 3, length)
        },
        ..RIGHT
    },
    ByIndex { name: "arrows counted as listed", answer: |answer, _, arrows| counted(answer, arrows), ..RIGHT },
    ByIndex { name: "no length answered", answer: |answer, _, _| Answer { length: 0, ..answer }, ..RIGHT },
    ByIndex { name: "the header written though refused", answer: |answer, index, _| hasty(answer, index), ..RIGHT },
    ByIndex {
        name: "an end mark past the index",
        answer: |answer, index, _| {
            index[answer.length as usize..]
                .iter_mut()
                .take(2 * usize::from(answer.number == 0))
                .for_each(|byte| *byte = 9);
            answer
        },
        ..RIGHT
    },
];

fn counted(answer: Answer, arrows: u16) -> Answer {
    match answer.number {
        0 => Answer { drops: arrows.into(), ..answer },
        _ => answer,
    }
}

fn hasty(answer: Answer, index: &mut [u8]) -> Answer {
    if let (7, Some(header)) = (answer.number, index.get_mut(..8)) {
        header.copy_from_slice(&[1, 0, 1, 0, 8, 0, 10, 0]);
    }
    answer
}

/// Planners that are wrong in makes and withdrawals by an index, and so are unlike themselves without one.
const WRONG_BY_INDEX: [ByIndex; 17] = [
    ByIndex {
        name: "length and header alone",
        suits: |_, built, lent| built.len() == lent.len() && built[..8] == lent[..8],
        ..RIGHT
    },
    ByIndex {
        name: "header not looked at",
        suits: |_, built, lent| built.len() == lent.len() && built[8..] == lent[8..],
        ..RIGHT
    },
    ByIndex { name: "a byte more accepted", suits: |_, built, lent| less(lent, 1) == built || lent == built, ..RIGHT },
    ByIndex { name: "a byte less accepted", suits: |_, built, lent| less(built, 1) == lent || lent == built, ..RIGHT },
    ByIndex { name: "bytes past the index accepted", suits: |_, built, lent| lent.starts_with(built), ..RIGHT },
    ByIndex { name: "an empty index accepted", suits: |_, built, lent| lent.is_empty() || lent == built, ..RIGHT },
    ByIndex {
        name: "low bytes alone",
        suits: |_, built, lent| built.len() == lent.len() && built.iter().step_by(2).eq(lent.iter().step_by(2)),
        ..RIGHT
    },
    ByIndex {
        name: "any order accepted",
        suits: |_, built, lent| {
            let [built, lent] = [built, lent].map(|index| read_as(index, |arrow| arrow));
            let sorted = |(header, mut arrows): (_, Vec<u16>)| {
                arrows.sort_unstable();
                (header, arrows)
            };
            built.map(sorted) == lent.map(sorted)
        },
        ..RIGHT
    },
    ByIndex {
        name: "ends alone",
        suits: |plant, built, lent| {
            let end = |arrow: u16| plant.arrows.get(usize::from(arrow)).map(|arrow| arrow.to);
            read_as(built, end) == read_as(lent, end)
        },
        ..RIGHT
    },
    ByIndex { name: "the index not looked at", suits: |_, _, _| true, ..RIGHT },
    ByIndex { name: "10 after 4", before: |number| number <= 4, ..RIGHT },
    ByIndex { name: "10 after 5", before: |number| number <= 5, ..RIGHT },
    ByIndex { name: "10 after 6", before: |number| number <= 6, ..RIGHT },
    ByIndex { name: "10 after 7", before: |number| number <= 7, ..RIGHT },
    ByIndex { name: "10 before all others", before: |_| false, ..RIGHT },
    ByIndex {
        name: "the book handed in ignored by index",
        withdraw: |plant, book, mask, out, drops| Remake.withdraw(plant, book, mask, out, drops),
        ..RIGHT
    },
    ByIndex { name: "every state lost by index", make: |plant, mask, book| AllLost.make(plant, mask, book), ..RIGHT },
];

/// Bytes less some at their end.
fn less(bytes: &[u8], count: usize) -> &[u8] {
    &bytes[..bytes.len().saturating_sub(count)]
}

/// A planner that strikes out by all arrows of an index but the last.
struct OneArrowShort;

impl Solve for OneArrowShort {
    const NAME: &'static str = "the last arrow of the index left out";

    fn solve(plant: &Plant, mask: u32, within: &[bool]) -> Table {
        Fast::solve(plant, mask, within)
    }

    fn solve_by(plant: &Plant, order: &[u16], mask: u32, within: &[bool]) -> Table {
        let mut plant = plant.clone();
        if let Some(&last) = order.last() {
            plant.arrows.remove(last.into());
        }
        Fast::solve(&plant, mask, within)
    }
}

/// Those that are unlike themselves without an index.
pub fn unlike_without() -> impl Iterator<Item = &'static dyn Calls> {
    let by_index = WRONG_BY_INDEX.iter().map(|planner| planner as &dyn Calls);
    by_index.chain([&OneArrowShort as &dyn Calls])
}

/// All of them.
pub fn all() -> impl Iterator<Item = &'static dyn Calls> {
    WRONG_BUILDERS.iter().map(|planner| planner as &dyn Calls).chain(unlike_without())
}

impl ByIndex {
    /// 10, if the bytes lent are not taken for the index of the plant and no other refusal comes before it: `plain` is
    /// the number of the call without an index.
    fn number(&self, plant: &[u8], index: &[u8], plain: u32) -> u32 {
        let suits = Plant::read(plant).is_ok_and(|plant| {
            let built = (self.build)(&plant, index_bytes(&plant));
            (self.suits)(&plant, &built, index)
        });
        match suits || plain != 0 && (self.before)(plain) {
            true => 0,
            false => 10,
        }
    }
}

impl Calls for ByIndex {
    fn name(&self) -> &'static str {
        self.name
    }

    fn index(&self, plant: &[u8], index: &mut [u8]) -> Answer {
        let right = Fast.index(plant, index);
        if let (0, Ok(plant)) = (right.number, Plant::read(plant)) {
            let built = (self.build)(&plant, index_bytes(&plant));
            index[..built.len()].copy_from_slice(&built);
        }
        (self.answer)(right, index, Plant::read(plant).map_or(0, |plant| plant.arrows.len() as u16))
    }

    fn make_indexed(&self, plant: &[u8], index: &[u8], mask: u32, book: &mut [u8]) -> Answer {
        let plain = AllLost.make(plant, mask, &mut book.to_vec()).number;
        match self.number(plant, index, plain) {
            0 => (self.make)(plant, mask, book),
            number => Answer::refused(number),
        }
    }

    fn withdraw_indexed(
        &self,
        plant: &[u8],
        index: &[u8],
        book: &[u8],
        mask: u32,
        out: &mut [u8],
        drops: &mut [u8],
    ) -> Answer {
        let plain = AllLost.withdraw(plant, book, mask, &mut out.to_vec(), &mut drops.to_vec()).number;
        match self.number(plant, index, plain) {
            0 => (self.withdraw)(plant, book, mask, out, drops),
            number => Answer::refused(number),
        }
    }

    fn make(&self, plant: &[u8], mask: u32, book: &mut [u8]) -> Answer {
        Fast.make(plant, mask, book)
    }

    fn withdraw(&self, plant: &[u8], book: &[u8], mask: u32, out: &mut [u8], drops: &mut [u8]) -> Answer {
        Fast.withdraw(plant, book, mask, out, drops)
    }

    fn withdraw_list(&self, plant: &[u8], book: &[u8], masks: &[u8], out: &mut [u8], drops: &mut [u8]) -> Answer {
        Fast.withdraw_list(plant, book, masks, out, drops)
    }

    fn return_moves(&self, plant: &[u8], book: &[u8], mask: u32, out: &mut [u8], gained: &mut [u8]) -> Answer {
        Fast.return_moves(plant, book, mask, out, gained)
    }

    fn preview(&self, plant: &[u8], book: &[u8], mask: u32, drops: &mut [u8]) -> Cost {
        Fast.preview(plant, book, mask, drops)
    }

    fn consult(&self, book: &[u8], state: u32, goal: u32) -> Advice {
        Fast.consult(book, state, goal)
    }

    fn row(&self, book: &[u8], state: u32) -> Part {
        Fast.row(book, state)
    }

    fn moves(&self, plant: &[u8], book: &[u8], state: u32, goal: u32) -> Mask {
        Fast.moves(plant, book, state, goal)
    }
}
