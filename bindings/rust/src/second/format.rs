//! The bytes of plants, indexes, books and lists of masks: what document 01 refuses with 1 to 5 and document 02 with 9
//! and 10, and how an index and a book are laid out.

use super::{require, Table};
use crate::plants::{bytes_of, SETTLED};
use crate::sys::LONGEST_MASKS;
use crate::Refusal;

/// Marks both places of every entry of a lost state, and its stage.
pub const LOST: u16 = u16::MAX;

/// The largest wait of a book.
const LARGEST_WAIT: u16 = 1023;

/// An arrow (transition): the move, made in the state `from`, may lead to the state `to`.
#[derive(Clone, Copy, Debug, PartialEq, Eq, PartialOrd, Ord)]
pub struct Arrow {
    /// Where it begins.
    pub from: u16,
    /// The move that it belongs to.
    pub action: u16,
    /// Where it ends.
    pub to: u16,
}

/// A plant that was read and found without fault.
#[derive(Clone, Debug)]
pub struct Plant {
    /// S, the number of states.
    pub states: usize,
    /// U, the number of moves.
    pub moves: usize,
    /// N, the number of goals.
    pub goals: usize,
    /// Whether runs must settle.
    pub settles: bool,
    /// A label for each state.
    pub labels: Vec<u16>,
    /// The arrows, by from, move and to.
    pub arrows: Vec<Arrow>,
}

impl Plant {
    /// Reads a plant; refuses with 1, 2 or 3.
    pub fn read(bytes: &[u8]) -> Result<Plant, Refusal> {
        let header = header(bytes).ok_or(Refusal::PlantHeader)?;
        let [states, moves, goals, count, labels_at, arrows_at, length, last] = header.map(usize::from);
        let counts = in_range(states, moves, goals) && count <= 8192;
        let places = labels_at == 16 && arrows_at == 16 + 2 * states && length == 16 + 2 * states + 6 * count;
        require(counts && places && last <= 1 && bytes.len() == length, Refusal::PlantHeader)?;

        let labels: Vec<u16> = numbers(&bytes[labels_at..arrows_at]).collect();
        let settles = last == 1;
        let free = if settles { SETTLED } else { 0 };
        require(labels.iter().all(|&label| u32::from(label & !free) >> (goals + 1) == 0), Refusal::PlantLabel)?;

        let arrows = read_arrows(&bytes[arrows_at..], states as u16, moves as u16).ok_or(Refusal::PlantArrow)?;
        Ok(Plant { states, moves, goals, settles, labels, arrows })
    }

    /// Whether a mask names only moves that the plant has.
    pub fn has_moves(&self, mask: u32) -> bool {
        below(mask, self.moves)
    }

    /// How long the plant's books are.
    pub fn book_length(&self) -> usize {
        book_length(self.states, self.goals, self.settles)
    }

    /// Whether the state is settled, in a plant whose runs must settle.
    pub fn is_settled(&self, state: usize) -> bool {
        self.labels[state] & SETTLED != 0
    }

    /// Whether the state is allowed.
    pub fn is_allowed(&self, state: usize) -> bool {
        self.labels[state] & 1 != 0
    }

    /// Whether the state is in the goal.
    pub fn in_goal(&self, state: usize, goal: usize) -> bool {
        self.labels[state] >> (1 + goal) & 1 != 0
    }

    /// Where the move, made in the state, may lead; nowhere if it has no arrow there.
    pub fn ends(&self, state: usize, action: u16) -> Vec<usize> {
        let place = |arrow: &Arrow| (usize::from(arrow.from), arrow.action);
        let first = self.arrows.partition_point(|arrow| place(arrow) < (state, action));
        let fan = self.arrows[first..].iter().take_while(|arrow| place(arrow) == (state, action));
        fan.map(|arrow| arrow.to.into()).collect()
    }
}

/// Reads the arrows; none if one of them is out of range or they do not strictly ascend.
fn read_arrows(bytes: &[u8], states: u16, moves: u16) -> Option<Vec<Arrow>> {
    let read = |bytes: &[u8]| Arrow { from: number(bytes, 0), action: number(bytes, 2), to: number(bytes, 4) };
    // The check has no early end and no choice to make: most plants have no fault. While they ascend, the last is the
    // one that begins in the highest state.
    let (mut is_fine, mut least) = (true, 0);
    for Arrow { from, action, to } in bytes.chunks_exact(6).map(read) {
        let rank = u64::from(from) << 32 | u64::from(action) << 16 | u64::from(to);
        is_fine &= (action < moves) & (to < states) & (least <= rank);
        least = rank + 1;
    }
    let ends_well = least >> 32 < u64::from(states);
    (is_fine && ends_well).then(|| bytes.chunks_exact(6).map(read).collect())
}

/// How long the plant's index is.
pub fn index_length(plant: &Plant) -> usize {
    8 + 2 * plant.arrows.len()
}

/// The bytes of the plant's index, by a sort that leaves arrows into one state as they stand.
pub fn index_bytes(plant: &Plant) -> Vec<u8> {
    let count = plant.arrows.len() as u16;
    let mut numbers: Vec<u16> = (0..count).collect();
    numbers.sort_by_key(|&number| plant.arrows[usize::from(number)].to);
    let header = [plant.states as u16, count, 8, index_length(plant) as u16];
    bytes_of(header.iter().chain(&numbers))
}

/// Reads the plant's index: the numbers of its arrows by the state they end in, and then by number. Refuses with 10.
/// Nothing is sorted for that: numbers of arrows that rise in this order, as many as there are arrows, are all of them.
pub fn read_index(bytes: &[u8], plant: &Plant) -> Result<Vec<u16>, Refusal> {
    let length = index_length(plant);
    let header = [plant.states as u16, plant.arrows.len() as u16, 8, length as u16];
    require(bytes.len() == length && numbers(&bytes[..8]).eq(header), Refusal::Index)?;
    let order: Vec<u16> = numbers(&bytes[8..]).collect();
    let (mut is_fine, mut least) = (true, 0);
    for &number in &order {
        let end = plant.arrows.get(usize::from(number)).map(|arrow| arrow.to);
        let rank = end.map_or(0, |end| u32::from(end) << 16 | u32::from(number));
        is_fine &= end.is_some() & (least <= rank);
        least = rank + 1;
    }
    require(is_fine, Refusal::Index)?;
    Ok(order)
}

/// A book that was read and found without fault.
#[derive(Clone, Copy, Debug)]
pub struct BookView<'a> {
    /// S, the number of states.
    pub states: usize,
    /// N, the number of goals.
    pub goals: usize,
    /// The moves in service.
    pub mask: u32,
    /// Whether rows open with a stage: whether it is a book for plants whose runs must settle.
    pub has_stages: bool,
    row_length: usize,
    rows: &'a [u8],
}

impl<'a> BookView<'a> {
    /// Reads a book, which must have the counts of the plant, and be of its sort, if one is given; refuses with 4 or 5.
    pub fn read(bytes: &'a [u8], plant: Option<&Plant>) -> Result<BookView<'a>, Refusal> {
        let header = header(bytes).ok_or(Refusal::BookHeader)?;
        let [states, moves, goals, kept, _, _, rows_at, length] = header.map(usize::from);
        let mask = u32::from(header[4]) | u32::from(header[5]) << 16;
        let has_stages = length == book_length(states, goals, true);
        let whole = has_stages || length == book_length(states, goals, false);
        let places = rows_at == 16 && whole && bytes.len() == length;
        let sound = in_range(states, moves, goals) && places && below(mask, moves);
        let like = |plant: &Plant| (plant.states, plant.moves, plant.goals, plant.settles);
        let suits = plant.map_or(true, |plant| like(plant) == (states, moves, goals, has_stages));
        require(sound && suits, Refusal::BookHeader)?;

        let rows = &bytes[16..];
        let book = BookView { states, goals, mask, has_stages, row_length: rows.len() / states, rows };
        let (mut lost, mut is_fine) = (0, true);
        for row in rows.chunks_exact(book.row_length) {
            let is_lost = row.iter().all(|&byte| byte == 0xff);
            lost += usize::from(is_lost);
            is_fine &= is_lost || book.is_sound(row);
        }
        require(is_fine && states - lost == kept, Refusal::BookRow)?;
        Ok(book)
    }

    /// Whether a row can be that of a kept state.
    fn is_sound(&self, row: &[u8]) -> bool {
        let (stage, entries) = row.split_at(self.row_length - 4 * self.goals);
        let in_range = |entry: &[u8]| number(entry, 0) <= LARGEST_WAIT && in_mask(self.mask, number(entry, 2));
        let is_stage = |stage: u16| (1..=self.states).contains(&stage.into());
        numbers(stage).all(is_stage) && entries.chunks_exact(4).all(in_range)
    }

    /// How many bytes a row has.
    pub fn row_length(&self) -> usize {
        self.row_length
    }

    /// The stage of a state, or [`LOST`]; 1 for every state of a book without stages.
    pub fn stage(&self, state: usize) -> u16 {
        match self.has_stages {
            true => number(self.rows, self.row_length * state),
            false => 1,
        }
    }

    /// The wait and the move of a state for a goal.
    pub fn entry(&self, state: usize, goal: usize) -> (u16, u16) {
        let at = self.row_length * (state + 1) - 4 * (self.goals - goal);
        (number(self.rows, at), number(self.rows, at + 2))
    }

    /// Whether the state is kept.
    pub fn is_kept(&self, state: usize) -> bool {
        self.entry(state, 0).0 != LOST
    }
}

/// How long a book is, with or without stages.
fn book_length(states: usize, goals: usize, stages: bool) -> usize {
    16 + if stages { 2 * states } else { 0 } + 4 * states * goals
}

/// Fills `book`, which has the length of the plant's books.
pub fn write_book(plant: &Plant, mask: u32, table: &Table, book: &mut [u8]) {
    let halves = [mask as u16, (mask >> 16) as u16];
    let counts = [plant.states, plant.moves, plant.goals, table.kept_count(plant)].map(|count| count as u16);
    let last = [16, book.len() as u16];
    let (header, rows) = book.split_at_mut(16);
    for (place, value) in header.chunks_exact_mut(2).zip(counts.into_iter().chain(halves).chain(last)) {
        place.copy_from_slice(&value.to_le_bytes());
    }
    let entries = table.waits.chunks_exact(plant.goals).zip(table.moves.chunks_exact(plant.goals));
    let row_length = rows.len() / plant.states;
    for ((row, stage), (waits, moves)) in rows.chunks_exact_mut(row_length).zip(&table.stages).zip(entries) {
        let (front, row) = row.split_at_mut(row_length - 4 * plant.goals);
        if plant.settles {
            front.copy_from_slice(&stage.to_le_bytes());
        }
        for (place, (wait, action)) in row.chunks_exact_mut(4).zip(waits.iter().zip(moves)) {
            place.copy_from_slice(&(u32::from(*wait) | u32::from(*action) << 16).to_le_bytes());
        }
    }
}

/// Reads a list of masks, four bytes each; refuses with 9. An empty list is one mask of 0.
pub fn read_masks(bytes: &[u8]) -> Result<Vec<u32>, Refusal> {
    require(bytes.len() % 4 == 0 && bytes.len() <= LONGEST_MASKS, Refusal::MaskList)?;
    if bytes.is_empty() {
        return Ok(vec![0]);
    }
    let mask = |four: &[u8]| u32::from_le_bytes([four[0], four[1], four[2], four[3]]);
    Ok(bytes.chunks_exact(4).map(mask).collect())
}

/// The moves that some of the masks have.
pub fn together(masks: &[u32]) -> u32 {
    masks.iter().fold(0, |all, mask| all | mask)
}

/// Whether the mask has the move.
pub fn in_mask(mask: u32, action: u16) -> bool {
    action < 32 && mask >> action & 1 != 0
}

fn in_range(states: usize, moves: usize, goals: usize) -> bool {
    (1..=1024).contains(&states) && (1..=32).contains(&moves) && (1..=8).contains(&goals)
}

/// Whether all bits of the mask are below a number of moves.
fn below(mask: u32, moves: usize) -> bool {
    u64::from(mask) >> moves == 0
}

/// The eight numbers of a header, if there are as many bytes.
fn header(bytes: &[u8]) -> Option<[u16; 8]> {
    (bytes.len() >= 16).then(|| std::array::from_fn(|at| number(bytes, 2 * at)))
}

fn numbers(bytes: &[u8]) -> impl Iterator<Item = u16> + '_ {
    bytes.chunks_exact(2).map(|pair| number(pair, 0))
}

/// The two-byte number at a place.
pub fn number(bytes: &[u8], at: usize) -> u16 {
    u16::from_le_bytes([bytes[at], bytes[at + 1]])
}
