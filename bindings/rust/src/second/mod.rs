//! The independent check: solvers made from documents 01 and 02 and the published algorithm alone, by other means than
//! the proved library, with the same calls and byte for byte the same answers.
//!
//! - [`Brute`] looks for strategies and for the opponent's replies one by one, for tiny plants, and panics if the two
//!   sides do not account for every state. It uses no fixed point.
//! - [`Plain`] is the textbook's nested fixed point, by sweeps over all arrows. It is the speed baseline.
//! - [`Fast`] strikes states out from a worklist, with the arrows indexed by the state they end in.
//!
//! By an index lent, the worklist lists the arrows in its order, and the others solve as ever.
//!
//! They share the checks and the layout of the bytes ([`mod@format`]) and the frame of the calls in this file, and nothing
//! of the solving: each turns a [`Plant`], the moves in service and the states it may use into a [`Table`]. In a plant
//! whose runs must settle they find the stages of request (ix) one after another.
//!
//! Second gauges for request (xi) stand in [`gauge`], and second desks for request (xii) in [`desk`].

mod brute;
pub mod desk;
mod fast;
pub mod format;
pub mod gauge;
mod plain;

pub use brute::{effort, Brute};
pub use fast::Fast;
pub use plain::Plain;

use crate::calls::Calls;
use crate::sys::{Advice, Answer, Cost, Mask, Part};
use crate::Refusal;
use format::{in_mask, BookView, Plant, LOST};

/// Stages of all states, and waits and moves row by row with an entry per goal; [`LOST`] in all for a lost state.
#[derive(Clone, Debug, PartialEq, Eq)]
pub struct Table {
    /// The stage of each state; of no account in a plant whose runs need not settle.
    pub stages: Vec<u16>,
    /// The least number of moves that forces the goal.
    pub waits: Vec<u16>,
    /// The move to make.
    pub moves: Vec<u16>,
}

impl Table {
    /// The table in which every state is lost.
    pub fn lost(plant: &Plant) -> Table {
        let entries = plant.states * plant.goals;
        Table { stages: vec![LOST; plant.states], waits: vec![LOST; entries], moves: vec![LOST; entries] }
    }

    /// Whether the state is kept.
    pub fn is_kept(&self, plant: &Plant, state: usize) -> bool {
        self.waits[state * plant.goals] != LOST
    }

    /// For each state whether it is kept.
    pub fn kept(&self, plant: &Plant) -> Vec<bool> {
        (0..plant.states).map(|state| self.is_kept(plant, state)).collect()
    }

    /// How many states are kept.
    pub fn kept_count(&self, plant: &Plant) -> usize {
        (0..plant.states).filter(|&state| self.is_kept(plant, state)).count()
    }
}

/// A way to solve a plant.
pub trait Solve {
    /// A short name for tables and messages.
    const NAME: &'static str;

    /// The table for the moves of `mask` in service, with strategies that never leave the allowed states that `within`
    /// holds.
    fn solve(plant: &Plant, mask: u32, within: &[bool]) -> Table;

    /// The same table, by the numbers of the plant's arrows in the order of the states they end in; a solver that has no
    /// use for them solves as ever.
    fn solve_by(plant: &Plant, _order: &[u16], mask: u32, within: &[bool]) -> Table {
        Self::solve(plant, mask, within)
    }
}

impl<S: Solve> Calls for S {
    fn name(&self) -> &'static str {
        S::NAME
    }

    fn make(&self, plant: &[u8], mask: u32, book: &mut [u8]) -> Answer {
        answered(Ground::read(plant).and_then(|ground| make::<S>(&ground, mask, book)))
    }

    fn withdraw(&self, plant: &[u8], book: &[u8], mask: u32, out: &mut [u8], drops: &mut [u8]) -> Answer {
        answered(Start::read(plant, book).and_then(|start| start.withdraw::<S>(&[mask], out, drops)))
    }

    fn withdraw_list(&self, plant: &[u8], book: &[u8], masks: &[u8], out: &mut [u8], drops: &mut [u8]) -> Answer {
        let withdraw = |start: Start| start.withdraw::<S>(&format::read_masks(masks)?, out, drops);
        answered(Start::read(plant, book).and_then(withdraw))
    }

    fn return_moves(&self, plant: &[u8], book: &[u8], mask: u32, out: &mut [u8], gained: &mut [u8]) -> Answer {
        answered(Start::read(plant, book).and_then(|start| start.return_moves::<S>(mask, out, gained)))
    }

    fn index(&self, plant: &[u8], index: &mut [u8]) -> Answer {
        answered(write_index(plant, index))
    }

    fn make_indexed(&self, plant: &[u8], index: &[u8], mask: u32, book: &mut [u8]) -> Answer {
        answered(Ground::indexed(plant, index).and_then(|ground| make::<S>(&ground, mask, book)))
    }

    fn withdraw_indexed(
        &self,
        plant: &[u8],
        index: &[u8],
        book: &[u8],
        mask: u32,
        out: &mut [u8],
        drops: &mut [u8],
    ) -> Answer {
        let start = Ground::indexed(plant, index).and_then(|ground| Start::on(ground, book));
        answered(start.and_then(|start| start.withdraw::<S>(&[mask], out, drops)))
    }

    fn preview(&self, plant: &[u8], book: &[u8], mask: u32, drops: &mut [u8]) -> Cost {
        preview::<S>(plant, book, mask, drops).unwrap_or_else(|refusal| Cost::refused(refusal.number()))
    }

    fn consult(&self, book: &[u8], state: u32, goal: u32) -> Advice {
        consult(book, state, goal).unwrap_or_else(|refusal| Advice::refused(refusal.number()))
    }

    fn row(&self, book: &[u8], state: u32) -> Part {
        row(book, state).unwrap_or_else(|refusal| Part::refused(refusal.number()))
    }

    fn moves(&self, plant: &[u8], book: &[u8], state: u32, goal: u32) -> Mask {
        moves(plant, book, state, goal).unwrap_or_else(|refusal| Mask::refused(refusal.number()))
    }
}

/// The answer, or that of a refused call.
fn answered(result: Result<Answer, Refusal>) -> Answer {
    result.unwrap_or_else(|refusal| Answer::refused(refusal.number()))
}

/// A plant, and the order of its arrows by an index, if one is lent.
struct Ground {
    plant: Plant,
    order: Option<Vec<u16>>,
}

impl Ground {
    /// Refuses with 1 to 3.
    fn read(plant: &[u8]) -> Result<Ground, Refusal> {
        Ok(Ground { plant: Plant::read(plant)?, order: None })
    }

    /// Refuses with 1 to 3 and 10.
    fn indexed(plant: &[u8], index: &[u8]) -> Result<Ground, Refusal> {
        let plant = Plant::read(plant)?;
        let order = format::read_index(index, &plant)?;
        Ok(Ground { plant, order: Some(order) })
    }

    fn solve<S: Solve>(&self, mask: u32, within: &[bool]) -> Table {
        match &self.order {
            Some(order) => S::solve_by(&self.plant, order, mask, within),
            None => S::solve(&self.plant, mask, within),
        }
    }
}

fn make<S: Solve>(ground: &Ground, mask: u32, book: &mut [u8]) -> Result<Answer, Refusal> {
    let plant = &ground.plant;
    let length = plant.book_length();
    require(plant.has_moves(mask), Refusal::Mask)?;
    require(book.len() >= length, Refusal::Buffer)?;
    let table = ground.solve::<S>(mask, &vec![true; plant.states]);
    format::write_book(plant, mask, &table, &mut book[..length]);
    Ok(Answer { number: 0, length: length as u32, drops: 0 })
}

fn write_index(plant: &[u8], index: &mut [u8]) -> Result<Answer, Refusal> {
    let plant = Plant::read(plant)?;
    let length = format::index_length(&plant);
    require(index.len() >= length, Refusal::Buffer)?;
    index[..length].copy_from_slice(&format::index_bytes(&plant));
    Ok(Answer { number: 0, length: length as u32, drops: 0 })
}

/// Solves the plant as withdraw does, and counts the rows in place of writing them.
fn preview<S: Solve>(plant: &[u8], book: &[u8], mask: u32, drops: &mut [u8]) -> Result<Cost, Refusal> {
    let start = Start::read(plant, book)?;
    require(start.ground.plant.has_moves(mask), Refusal::Mask)?;
    require(drops.len() >= 2 * start.ground.plant.states, Refusal::Buffer)?;
    let (_, table) = start.solve::<S>(&[mask]);
    let kept = table.kept_count(&start.ground.plant) as u32;
    Ok(Cost { number: 0, drops: list_states(start.dropped(&table), drops), kept })
}

/// What withdrawals, previews of them and returns start from.
struct Start {
    ground: Ground,
    /// Whether each state is kept in the book handed in.
    kept: Vec<bool>,
    /// The moves in service in that book.
    mask: u32,
}

impl Start {
    /// Refuses with 1 to 5.
    fn read(plant: &[u8], book: &[u8]) -> Result<Start, Refusal> {
        Start::on(Ground::read(plant)?, book)
    }

    /// Refuses with 4 and 5.
    fn on(ground: Ground, book: &[u8]) -> Result<Start, Refusal> {
        let book = BookView::read(book, Some(&ground.plant))?;
        let kept = (0..book.states).map(|state| book.is_kept(state)).collect();
        Ok(Start { ground, kept, mask: book.mask })
    }

    /// Withdraws the moves of these masks, of which there is one at least, in turn, and writes the last book and the
    /// states lost in it that were kept at the start. Refuses with 6 and 7.
    fn withdraw<S: Solve>(&self, masks: &[u32], out: &mut [u8], drops: &mut [u8]) -> Result<Answer, Refusal> {
        self.check(masks, out, drops)?;
        let (left, table) = self.solve::<S>(masks);
        Ok(Answer { drops: list_states(self.dropped(&table), drops), ..self.write(left, &table, out) })
    }

    /// Puts the moves of this mask back in service and solves the plant afresh, whichever states were kept at the
    /// start. Writes the book and the states kept in it that were lost at the start. Refuses with 6 and 7.
    fn return_moves<S: Solve>(&self, mask: u32, out: &mut [u8], gained: &mut [u8]) -> Result<Answer, Refusal> {
        self.check(&[mask], out, gained)?;
        let in_service = self.mask | mask;
        let table = self.ground.solve::<S>(in_service, &vec![true; self.ground.plant.states]);
        Ok(Answer { drops: list_states(self.gained(&table), gained), ..self.write(in_service, &table, out) })
    }

    /// Refuses with 6 and 7: masks, and buffers for a book and for a list of states.
    fn check(&self, masks: &[u32], out: &[u8], list: &[u8]) -> Result<(), Refusal> {
        let plant = &self.ground.plant;
        require(masks.iter().all(|&mask| plant.has_moves(mask)), Refusal::Mask)?;
        require(out.len() >= plant.book_length() && list.len() >= 2 * plant.states, Refusal::Buffer)
    }

    /// Writes the book of a table; the answer has its length, and no state listed yet.
    fn write(&self, mask: u32, table: &Table, out: &mut [u8]) -> Answer {
        let length = self.ground.plant.book_length();
        format::write_book(&self.ground.plant, mask, table, &mut out[..length]);
        Answer { number: 0, length: length as u32, drops: 0 }
    }

    /// The moves left in service and the last table when the moves of these masks are withdrawn in turn, each time from
    /// the states that the table before keeps.
    fn solve<S: Solve>(&self, masks: &[u32]) -> (u32, Table) {
        let (first, others) = masks.split_first().expect("one mask at least");
        let mut left = self.mask & !first;
        let mut table = self.ground.solve::<S>(left, &self.kept);
        for mask in others {
            left &= !mask;
            table = self.ground.solve::<S>(left, &table.kept(&self.ground.plant));
        }
        (left, table)
    }

    /// The states that were kept and that the table has lost, by rising number.
    fn dropped<'a>(&'a self, table: &'a Table) -> impl Iterator<Item = usize> + 'a {
        (0..self.ground.plant.states).filter(|&state| self.kept[state] && !table.is_kept(&self.ground.plant, state))
    }

    /// The states that were lost and that the table keeps, by rising number.
    fn gained<'a>(&'a self, table: &'a Table) -> impl Iterator<Item = usize> + 'a {
        (0..self.ground.plant.states).filter(|&state| !self.kept[state] && table.is_kept(&self.ground.plant, state))
    }
}

/// Writes the numbers of these states to the start of a list; answers how many.
fn list_states(states: impl Iterator<Item = usize>, list: &mut [u8]) -> u32 {
    let mut count = 0;
    for (state, place) in states.zip(list.chunks_exact_mut(2)) {
        place.copy_from_slice(&(state as u16).to_le_bytes());
        count += 1;
    }
    count
}

fn consult(book: &[u8], state: u32, goal: u32) -> Result<Advice, Refusal> {
    let book = BookView::read(book, None)?;
    require((state as usize) < book.states && (goal as usize) < book.goals, Refusal::OutOfBook)?;
    if !book.is_kept(state as usize) {
        return Ok(Advice { lost: 1, ..Advice::default() });
    }
    let seek = arrive(&book, state as usize, goal as usize);
    let (wait, action) = book.entry(state as usize, seek);
    Ok(Advice { number: 0, lost: 0, action: action.into(), wait: wait.into(), seek: seek as u32 })
}

/// The goal arrived at in a kept state: from the goal sought on, after the last the first, the first goal that the
/// state does not serve, that is, whose wait is not 0; the goal sought if it serves them all.
fn arrive(book: &BookView, state: usize, sought: usize) -> usize {
    let mut in_turn = (sought..book.goals).chain(0..sought);
    in_turn.find(|&goal| book.entry(state, goal).0 != 0).unwrap_or(sought)
}

fn row(book: &[u8], state: u32) -> Result<Part, Refusal> {
    let book = BookView::read(book, None)?;
    require((state as usize) < book.states, Refusal::OutOfBook)?;
    let length = book.row_length() as u32;
    Ok(Part { number: 0, start: 16 + length * state, length })
}

/// Tries each move in service by itself. Those that lead to earlier stages alone are the good ones, if there are any;
/// otherwise those that lead to no later stage and, in the state's own and above wait 0, nearer to the goal arrived at.
/// In a book without stages all kept states are of one.
fn moves(plant: &[u8], book: &[u8], state: u32, goal: u32) -> Result<Mask, Refusal> {
    let plant = Plant::read(plant)?;
    let book = BookView::read(book, Some(&plant))?;
    let (state, goal) = (state as usize, goal as usize);
    require(state < book.states && goal < book.goals, Refusal::OutOfBook)?;
    if !book.is_kept(state) {
        return Ok(Mask::default());
    }
    let goal = arrive(&book, state, goal);
    let (wait, stage) = (book.entry(state, goal).0, book.stage(state));
    let is_earlier = |end: usize| book.is_kept(end) && book.stage(end) < stage;
    let is_nearer = |end: usize| {
        let beside = book.is_kept(end) && book.stage(end) == stage;
        is_earlier(end) || beside && (wait == 0 || book.entry(end, goal).0 < wait)
    };
    let mask = match leading(&plant, book.mask, state, is_earlier) {
        0 => leading(&plant, book.mask, state, is_nearer),
        leaving => leaving,
    };
    Ok(Mask { number: 0, mask })
}

/// The moves in service that lead somewhere, and only to ends at which the test holds.
fn leading(plant: &Plant, mask: u32, state: usize, test: impl Fn(usize) -> bool) -> u32 {
    let leads = |action: &u16| {
        let ends = plant.ends(state, *action);
        !ends.is_empty() && ends.into_iter().all(&test)
    };
    let in_service = (0..plant.moves as u16).filter(|&action| in_mask(mask, action));
    in_service.filter(leads).map(|action| 1 << action).sum()
}

fn require(holds: bool, refusal: Refusal) -> Result<(), Refusal> {
    holds.then_some(()).ok_or(refusal)
}
