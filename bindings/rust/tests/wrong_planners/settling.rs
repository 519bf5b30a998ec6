//! Planners that are wrong in plants that must settle alone: in the solving, each by a flaw of its own, or in what they
//! accept.

use planbook::calls::Calls;
use planbook::second::format::{in_mask, number, BookView, Plant, LOST};
use planbook::second::{Fast, Solve, Table};
use planbook::sys::{Advice, Answer, Cost, Mask, Part, LONGEST_BOOK};

/// What a planner gets wrong.
#[derive(Clone, Copy)]
struct Flaws {
    name: &'static str,
    /// States that leave must be settled.
    settled_exits: bool,
    /// Where the state is in the goal, the goal's rule comes before leaving.
    goal_first: bool,
    /// To be settled is one more goal.
    again_and_again: bool,
    /// There are no more stages than so many.
    stages: u16,
    /// Waits and moves of states that do not leave are those of document 01.
    plain_waits: bool,
    /// A wait does not end in a state of the own stage that leaves.
    earlier_alone: bool,
    /// The first stage.
    first: u16,
    /// A stage passes states that are not settled.
    restless: bool,
    /// The move of a wait leads to smaller waits alone, or at wait 0 to the own stage.
    own_stage: bool,
    /// A state that leaves has its wait for each goal, as if it did not.
    waits_of_exits: bool,
}

const NONE: Flaws = Flaws {
    name: "right settling",
    settled_exits: false,
    goal_first: false,
    again_and_again: false,
    stages: u16::MAX - 1,
    plain_waits: false,
    earlier_alone: false,
    first: 1,
    restless: false,
    own_stage: false,
    waits_of_exits: false,
};

/// The right planner, and the wrong ones.
const FLAWS: [Flaws; 13] = [
    NONE,
    Flaws { name: "exits must be settled", settled_exits: true, ..NONE },
    Flaws { name: "the goal rule before leaving", goal_first: true, ..NONE },
    Flaws { name: "settled again and again only", again_and_again: true, ..NONE },
    Flaws { name: "one stage only", stages: 1, ..NONE },
    Flaws { name: "two stages only", stages: 2, ..NONE },
    Flaws { name: "plain waits", plain_waits: true, ..NONE },
    Flaws { name: "only earlier stages end a wait", earlier_alone: true, ..NONE },
    Flaws { name: "stages from 0", first: 0, ..NONE },
    Flaws { name: "stages from 2", first: 2, ..NONE },
    Flaws { name: "states that are not settled passed", restless: true, ..NONE },
    Flaws { name: "moves into the own stage alone", own_stage: true, ..NONE },
    Flaws { name: "waits where the stage is left", waits_of_exits: true, ..NONE },
];

/// A planner with one of the flaws.
pub struct Settling<const FLAW: usize>;

impl<const FLAW: usize> Solve for Settling<FLAW> {
    const NAME: &'static str = FLAWS[FLAW].name;

    fn solve(plant: &Plant, mask: u32, within: &[bool]) -> Table {
        match plant.settles {
            true => Game::new(plant, mask, FLAWS[FLAW]).solve(within),
            false => Fast::solve(plant, mask, within),
        }
    }
}

/// All planners with a flaw.
pub fn flawed() -> [&'static dyn Calls; 12] {
    [
        &Settling::<1>,
        &Settling::<2>,
        &Settling::<3>,
        &Settling::<4>,
        &Settling::<5>,
        &Settling::<6>,
        &Settling::<7>,
        &Settling::<8>,
        &Settling::<9>,
        &Settling::<10>,
        &Settling::<11>,
        &Settling::<12>,
    ]
}

/// A plant that is solved with some flaws.
struct Game<'a> {
    plant: &'a Plant,
    /// For each state the moves in service that have an arrow there, and where their arrows end.
    moves: Vec<Vec<(u16, Vec<usize>)>>,
    flaws: Flaws,
}

/// The states of a stage and of all earlier ones, of the earlier ones alone, and those that can leave.
struct Stage {
    through: Vec<bool>,
    earlier: Vec<bool>,
    leaves: Vec<bool>,
}

impl Game<'_> {
    fn new(plant: &Plant, mask: u32, flaws: Flaws) -> Game<'_> {
        let mut moves = vec![Vec::new(); plant.states];
        for fan in plant.arrows.chunk_by(|a, b| (a.from, a.action) == (b.from, b.action)) {
            if in_mask(mask, fan[0].action) {
                let ends: Vec<usize> = fan.iter().map(|arrow| arrow.to.into()).collect();
                moves[usize::from(fan[0].from)].push((fan[0].action, ends));
            }
        }
        Game { plant, moves, flaws }
    }

    fn solve(&self, within: &[bool]) -> Table {
        let usable = self.states(|state| self.plant.is_allowed(state) && within[state]);
        let mut table = Table::lost(self.plant);
        let mut earlier = self.states(|_| false);
        for number in 0..self.flaws.stages {
            let stage = self.stage(&usable, earlier);
            if stage.through == stage.earlier {
                break;
            }
            self.write_rows(&stage, number + self.flaws.first, &mut table);
            earlier = stage.through;
        }
        if self.flaws.plain_waits {
            self.write_plain_rows(&mut table);
        }
        table
    }

    fn states(&self, test: impl Fn(usize) -> bool) -> Vec<bool> {
        (0..self.plant.states).map(test).collect()
    }

    fn stage(&self, usable: &[bool], earlier: Vec<bool>) -> Stage {
        let (plant, flaws) = (self.plant, self.flaws);
        let may_leave = |state| usable[state] && (!flaws.settled_exits || plant.is_settled(state));
        let leaves = self.states(|state| may_leave(state) && self.lowest(state, |end| earlier[end]).is_some());
        let any = flaws.restless || flaws.again_and_again;
        let passed = self.states(|state| usable[state] && (any || plant.is_settled(state) || leaves[state]));
        let through = self.held(&passed, &leaves);
        Stage { through, earlier, leaves }
    }

    fn held(&self, passed: &[bool], leaves: &[bool]) -> Vec<bool> {
        let goals = self.plant.goals + usize::from(self.flaws.again_and_again);
        let in_goal = |state, goal| match goal == self.plant.goals {
            true => self.plant.is_settled(state),
            false => self.plant.in_goal(state, goal),
        };
        let mut kept = passed.to_vec();
        loop {
            let mut next = passed.to_vec();
            for goal in 0..goals {
                let stays = |state| self.lowest(state, |end| kept[end]).is_some();
                let levels = self.force(passed, |state| leaves[state] || in_goal(state, goal) && stays(state));
                next.iter_mut().zip(levels).for_each(|(next, level)| *next &= level != LOST);
            }
            if next == kept {
                return kept;
            }
            kept = next;
        }
    }

    /// The least number of moves that forces a state at which the test holds, or [`LOST`].
    fn force(&self, passed: &[bool], test: impl Fn(usize) -> bool) -> Vec<u16> {
        let mut levels: Vec<u16> =
            (0..passed.len()).map(|state| if passed[state] && test(state) { 0 } else { LOST }).collect();
        for level in 1.. {
            let new = |state: &usize| {
                passed[*state] && levels[*state] == LOST && self.lowest(*state, |end| levels[end] < level).is_some()
            };
            let grown: Vec<usize> = (0..passed.len()).filter(new).collect();
            if grown.is_empty() {
                break;
            }
            grown.into_iter().for_each(|state| levels[state] = level);
        }
        levels
    }

    /// The lowest move in service that leads only to where the test holds.
    fn lowest(&self, state: usize, test: impl Fn(usize) -> bool) -> Option<u16> {
        let found = self.moves[state].iter().find(|(_, ends)| ends.iter().all(|&end| test(end)));
        found.map(|(action, _)| *action)
    }

    fn write_rows(&self, stage: &Stage, number: u16, table: &mut Table) {
        let Stage { through, earlier, leaves } = stage;
        let (plant, flaws) = (self.plant, self.flaws);
        let own = |state: usize| through[state] && !earlier[state];
        for goal in 0..plant.goals {
            let there = |state| plant.in_goal(state, goal) || earlier[state] || leaves[state] && !flaws.earlier_alone;
            let waits = self.force(through, there);
            let plain = self.force(through, |state| plant.in_goal(state, goal) || earlier[state]);
            for state in (0..plant.states).filter(|&state| own(state)) {
                let leaves = leaves[state] && !(flaws.goal_first && plant.in_goal(state, goal));
                let wait = if leaves { 0 } else { waits[state] };
                let beside = |end: usize| own(end) && (wait == 0 || waits[end] < wait);
                let good = |end: usize| earlier[end] && (leaves || !flaws.own_stage) || !leaves && beside(end);
                let at = state * plant.goals + goal;
                table.stages[state] = number;
                table.waits[at] = if leaves && flaws.waits_of_exits { plain[state] } else { wait };
                // A flaw may leave no move: then it is the lowest into the stages so far.
                let listed = self.lowest(state, good).or_else(|| self.lowest(state, |end| through[end]));
                table.moves[at] = listed.expect("a kept state has a move");
            }
        }
    }

    /// The rows of document 01, but for states that leave.
    fn write_plain_rows(&self, table: &mut Table) {
        let (plant, kept) = (self.plant, table.kept(self.plant));
        for goal in 0..plant.goals {
            let waits = self.force(&kept, |state| plant.in_goal(state, goal));
            for state in (0..plant.states).filter(|&state| kept[state] && plant.is_settled(state)) {
                let good = |end: usize| kept[end] && (waits[state] == 0 || waits[end] < waits[state]);
                if let Some(action) = self.lowest(state, good) {
                    table.waits[state * plant.goals + goal] = waits[state];
                    table.moves[state * plant.goals + goal] = action;
                }
            }
        }
    }
}

/// A planner that changes a plant or a book before it looks at it, so that more is accepted than should be.
pub struct Lenient {
    name: &'static str,
    plant: fn(&mut [u8]),
    book: fn(&mut Vec<u8>, Option<&Plant>),
    /// Whether room for a book without stages is enough.
    short: bool,
}

const STRICT: Lenient = Lenient { name: "strict", plant: |_| {}, book: |_, _| {}, short: false };

/// The planners that accept too much.
pub const LENIENT: [Lenient; 12] = [
    Lenient { name: "bit 9 always free", plant: |plant| clear_labels(plant, 0, 1 << 9), ..STRICT },
    Lenient { name: "bit 10 free", plant: |plant| clear_labels(plant, 1, 1 << 10), ..STRICT },
    Lenient { name: "all high bits free", plant: |plant| clear_labels(plant, 1, 0xfc00), ..STRICT },
    Lenient { name: "bit 8 free", plant: |plant| clear_labels(plant, 1, 1 << 8), ..STRICT },
    Lenient { name: "any last number", plant: |plant| put(plant, 14, number(plant, 14).min(1)), ..STRICT },
    Lenient { name: "the low byte of the last number", plant: |plant| plant[15] = 0, ..STRICT },
    Lenient { name: "stage 0 accepted", book: |book, _| change_stages(book, |stage, _| stage.max(1)), ..STRICT },
    Lenient {
        name: "stages past S accepted",
        book: |book, _| change_stages(book, |stage, most| stage.min(most)),
        ..STRICT
    },
    Lenient {
        name: "stage of a lost row left aside",
        book: |book, _| change_lost_rows(book, |row| row[2..] == *vec![0xff; row.len() - 2]),
        ..STRICT
    },
    Lenient {
        name: "lost by the stage alone",
        book: |book, _| change_lost_rows(book, |row| row[..2] == [0xff; 2]),
        ..STRICT
    },
    Lenient { name: "sort not compared", book: take_either_sort, ..STRICT },
    Lenient { name: "limit without stages", short: true, ..STRICT },
];

fn put(bytes: &mut [u8], at: usize, value: u16) {
    bytes[at..at + 2].copy_from_slice(&value.to_le_bytes());
}

/// Clears bits of all labels of a plant with this last header number.
fn clear_labels(plant: &mut [u8], last: u16, bits: u16) {
    if number(plant, 14) == last {
        let end = plant.len().min(16 + 2 * usize::from(number(plant, 0)));
        for at in (16..end.saturating_sub(1)).step_by(2) {
            put(plant, at, number(plant, at) & !bits);
        }
    }
}

/// The length of the rows of a book with stages; nothing for other bytes.
fn staged_row(book: &[u8]) -> Option<usize> {
    let [states, goals] = [0, 4].map(|at| usize::from(number(book, at)));
    (book.len() == 16 + 2 * states + 4 * states * goals && states != 0).then_some(2 + 4 * goals)
}

/// Changes the stage of each row with another than the mark.
fn change_stages(book: &mut [u8], change: fn(u16, u16) -> u16) {
    let (row_length, states) = (staged_row(book), number(book, 0));
    for row in row_length.map(|length| book[16..].chunks_exact_mut(length)).into_iter().flatten() {
        if row[..2] != [0xff; 2] {
            put(row, 0, change(number(row, 0), states));
        }
    }
}

/// Makes the rows wholly lost that the test picks.
fn change_lost_rows(book: &mut [u8], test: fn(&[u8]) -> bool) {
    let row_length = staged_row(book);
    for row in row_length.map(|length| book[16..].chunks_exact_mut(length)).into_iter().flatten() {
        if test(row) {
            row.fill(0xff);
        }
    }
}

/// Turns a book into one of the plant's sort: stages are left out, or are 1.
fn take_either_sort(book: &mut Vec<u8>, plant: Option<&Plant>) {
    let (Some(plant), Ok(rows)) = (plant, BookView::read(book, None)) else {
        return;
    };
    if plant.settles == rows.has_stages || (plant.states, plant.goals) != (rows.states, rows.goals) {
        return;
    }
    let opening = if rows.has_stages { 2 } else { 0 };
    let mut other = book[..16].to_vec();
    for row in book[16..].chunks_exact(rows.row_length()) {
        if plant.settles {
            other.extend(if row[..2] == [0xff; 2] { [0xff; 2] } else { [1, 0] });
        }
        other.extend(&row[opening..]);
    }
    let length = other.len() as u16;
    put(&mut other, 14, length);
    *book = other;
}

impl Lenient {
    /// The plant as it is looked at, if it is one then alone, and otherwise as it is.
    fn plant(&self, bytes: &[u8]) -> Vec<u8> {
        let mut changed = bytes.to_vec();
        if bytes.len() >= 16 && Plant::read(bytes).is_err() {
            (self.plant)(&mut changed);
        }
        if Plant::read(&changed).is_ok() {
            changed
        } else {
            bytes.to_vec()
        }
    }

    /// The book as it is looked at, if it is one then, and otherwise as it is.
    fn book(&self, bytes: &[u8], plant: Option<&[u8]>) -> Vec<u8> {
        let mut changed = bytes.to_vec();
        let plant = plant.and_then(|plant| Plant::read(&self.plant(plant)).ok());
        if bytes.len() >= 16 {
            (self.book)(&mut changed, plant.as_ref());
        }
        if BookView::read(&changed, None).is_ok() {
            changed
        } else {
            bytes.to_vec()
        }
    }

    /// Makes a call with the buffer that is lent, or one with room for any book, of which as much is handed on as fits.
    fn with_room(&self, plant: &[u8], out: &mut [u8], call: impl FnOnce(&mut [u8]) -> Answer) -> Answer {
        let needed = Plant::read(plant).map_or(0, |plant| 16 + 4 * plant.states * plant.goals);
        if !self.short || out.len() < needed {
            return call(out);
        }
        let mut longer = vec![0; LONGEST_BOOK.max(out.len())];
        longer[..out.len()].copy_from_slice(out);
        let answer = call(&mut longer);
        out.copy_from_slice(&longer[..out.len()]);
        answer
    }
}

impl Calls for Lenient {
    fn name(&self) -> &'static str {
        self.name
    }

    fn make(&self, plant: &[u8], mask: u32, book: &mut [u8]) -> Answer {
        let plant = self.plant(plant);
        self.with_room(&plant, book, |book| Fast.make(&plant, mask, book))
    }

    fn withdraw(&self, plant: &[u8], book: &[u8], mask: u32, out: &mut [u8], drops: &mut [u8]) -> Answer {
        let (plant, book) = (self.plant(plant), self.book(book, Some(plant)));
        self.with_room(&plant, out, |out| Fast.withdraw(&plant, &book, mask, out, drops))
    }

    fn withdraw_list(&self, plant: &[u8], book: &[u8], masks: &[u8], out: &mut [u8], drops: &mut [u8]) -> Answer {
        let (plant, book) = (self.plant(plant), self.book(book, Some(plant)));
        self.with_room(&plant, out, |out| Fast.withdraw_list(&plant, &book, masks, out, drops))
    }

    fn return_moves(&self, plant: &[u8], book: &[u8], mask: u32, out: &mut [u8], gained: &mut [u8]) -> Answer {
        let (plant, book) = (self.plant(plant), self.book(book, Some(plant)));
        self.with_room(&plant, out, |out| Fast.return_moves(&plant, &book, mask, out, gained))
    }

    fn index(&self, plant: &[u8], index: &mut [u8]) -> Answer {
        Fast.index(&self.plant(plant), index)
    }

    fn make_indexed(&self, plant: &[u8], index: &[u8], mask: u32, book: &mut [u8]) -> Answer {
        let plant = self.plant(plant);
        self.with_room(&plant, book, |book| Fast.make_indexed(&plant, index, mask, book))
    }

    fn withdraw_indexed(
        &self,
        plant: &[u8],
        index: &[u8],
        book: &[u8],
        mask: u32,
        out: &mut [u8],
        drops: &mut [u8],
    ) -> Answer {
        let (plant, book) = (self.plant(plant), self.book(book, Some(plant)));
        self.with_room(&plant, out, |out| Fast.withdraw_indexed(&plant, index, &book, mask, out, drops))
    }

    fn preview(&self, plant: &[u8], book: &[u8], mask: u32, drops: &mut [u8]) -> Cost {
        Fast.preview(&self.plant(plant), &self.book(book, Some(plant)), mask, drops)
    }

    fn consult(&self, book: &[u8], state: u32, goal: u32) -> Advice {
        Fast.consult(&self.book(book, None), state, goal)
    }

    fn row(&self, book: &[u8], state: u32) -> Part {
        Fast.row(&self.book(book, None), state)
    }

    fn moves(&self, plant: &[u8], book: &[u8], state: u32, goal: u32) -> Mask {
        Fast.moves(&self.plant(plant), &self.book(book, Some(plant)), state, goal)
    }
}
