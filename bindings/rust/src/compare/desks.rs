//! One desk held against another: the same start or report, and then the same answer, field by field, and nothing
//! changed in what was lent to read. What a desk shows must go with what a planner's consult says of the same book,
//! too.
//!
//! A difference is a panic whose message has the call's input in hex.

use std::fmt::Debug;

use super::{both, bytes_lent, Counts};
use crate::calls::{Calls, Desks, Held};
use crate::second::format::{number, BookView, Plant};
use crate::sys::{Advice, Desk};

pub mod rounds;
pub mod walks;

/// The numbers with which a desk refuses.
pub const REFUSALS: [u32; 7] = [1, 2, 3, 4, 5, 8, 13];

/// How often something was met.
#[derive(Clone, Copy, Debug, Default)]
struct Tally {
    calls: u64,
    /// For each of [`REFUSALS`].
    refused: [u64; REFUSALS.len()],
    starts: u64,
    /// Starts in lost states.
    lost_starts: u64,
    reports: u64,
    /// Reports of lost states.
    lost_reports: u64,
    /// Reports of states in which a goal or more is passed.
    passing: u64,
    /// Reports of states that serve all of several goals.
    all_served: u64,
    /// Accepted reports in which the goal held is passed in the state held.
    passed_before: u64,
    /// Reports that are refused with 13 since the state held is lost.
    from_lost: u64,
    /// Those since the state reported is the end of another move.
    other_move: u64,
    /// Those since it is the end of no arrow.
    no_arrow: u64,
}

/// Compares `ours` with `second`, and counts the calls compared.
pub struct DeskComparison<'a> {
    ours: &'a dyn Desks,
    second: &'a dyn Desks,
    /// Writes the books, and is consulted.
    planner: &'a dyn Calls,
    tally: Tally,
    walks: walks::Walked,
}

impl Counts for DeskComparison<'_> {
    fn calls(&self) -> u64 {
        self.tally.calls
    }
}

impl<'a> DeskComparison<'a> {
    /// Compares two desks, with books that a planner writes.
    pub fn new(ours: &'a dyn Desks, second: &'a dyn Desks, planner: &'a dyn Calls) -> DeskComparison<'a> {
        DeskComparison { ours, second, planner, tally: Tally::default(), walks: walks::Walked::default() }
    }

    /// How many calls were refused with each of [`REFUSALS`].
    pub fn refused(&self) -> [u64; REFUSALS.len()] {
        self.tally.refused
    }

    /// How many accepted starts and reports there were, starts in lost states and reports of them; how many reports
    /// were of states that pass goals, how many of states that serve all of several, and how many had the goal held
    /// passed in the state held; and how many reports were refused with 13 for a lost state held, for the end of
    /// another move and for that of no arrow.
    pub fn counts(&self) -> [u64; 10] {
        let Tally { starts, lost_starts, reports, lost_reports, passing, all_served, passed_before, .. } = self.tally;
        let Tally { from_lost, other_move, no_arrow, .. } = self.tally;
        [
            starts,
            lost_starts,
            reports,
            lost_reports,
            passing,
            all_served,
            passed_before,
            from_lost,
            other_move,
            no_arrow,
        ]
    }

    /// What the walks met that were watched.
    pub fn walked(&self) -> &walks::Walked {
        &self.walks
    }

    /// What was compared so far, in words.
    pub fn summary(&self) -> String {
        let [ours, second] = [self.ours, self.second].map(|desk| desk.name());
        let Tally { calls, refused, .. } = self.tally;
        let [starts, lost, reports, lost_reports, passing, all_served, before, from_lost, other, none] = self.counts();
        let refused: Vec<String> =
            REFUSALS.iter().zip(refused).map(|(number, times)| format!("{number}: {times}")).collect();
        format!(
            "{ours} and {second} do not differ in {calls} calls; {starts} starts are accepted, {lost} of them in lost \
             states, and {reports} reports, {lost_reports} of lost states, {passing} where goals are passed, \
             {all_served} where all of several are served and {before} where the goal held was passed before; refused \
             are {}, and 13 is for {from_lost} lost states held, {other} ends of other moves and {none} of no arrow{}",
            refused.join(", "),
            self.walks.summary()
        )
    }

    /// Compares a start, and hands back the answer. It must be what consult says, seeking goal 0, and is refused as the
    /// call for the good moves is.
    pub fn start(&mut self, plant: &[u8], book: &[u8], state: u32) -> Desk {
        let input = || format!("start, state {state}, {}", both(plant, book));
        let desk = self.same_from_both(plant, book, &input, |desk| desk.start(plant, book, state));
        let told = match self.planner.moves(plant, book, state, 0).number {
            0 => held_by(self.planner.consult(book, state, 0), state, 0),
            number => Desk::refused(number),
        };
        self.same([desk, told], &|| self.alone("consult", &input));
        self.count(desk.number);
        self.tally.starts += u64::from(desk.number == 0);
        self.tally.lost_starts += u64::from(desk.lost != 0);
        desk
    }

    /// Compares a report, and hands back the answer. An accepted one must be what consult says of the state reported,
    /// seeking the goal that it says to seek in the state held; and none may change if that goal is held to begin with,
    /// but for the goal handed back when it is refused.
    pub fn report(&mut self, plant: &[u8], book: &[u8], held: Held, reported: u32) -> Desk {
        let input = || {
            let Held { state, goal } = held;
            format!("report, held {state}/{goal}, reported {reported}, {}", both(plant, book))
        };
        let desk = self.same_from_both(plant, book, &input, |desk| desk.report(plant, book, held, reported));
        self.as_consulted(plant, book, held, reported, desk, &|| self.alone("consult", &input));
        if matches!(desk.number, 0 | 13) {
            let before = self.planner.consult(book, held.state, held.goal);
            let sought = if before.lost == 0 { before.seek } else { held.goal };
            let again = self.ours.report(plant, book, Held { goal: sought, ..held }, reported);
            let told = if desk.number == 0 { desk } else { Desk { goal: sought, ..desk } };
            self.same([again, told], &|| self.alone("the goal sought there held", &input));
            self.count_report(plant, book, held, reported, desk, before);
        }
        self.count(desk.number);
        desk
    }

    /// What a report answers goes with what the planner says.
    fn as_consulted(
        &self,
        plant: &[u8],
        book: &[u8],
        held: Held,
        reported: u32,
        desk: Desk,
        input: &dyn Fn() -> String,
    ) {
        let checked = self.planner.moves(plant, book, held.state, held.goal).number;
        let number = if checked == 0 { self.planner.consult(book, reported, 0).number } else { checked };
        let before = self.planner.consult(book, held.state, held.goal);
        let told = match (number, desk.number) {
            (0, 0) if before.lost == 0 => {
                held_by(self.planner.consult(book, reported, before.seek), reported, before.seek)
            }
            (0, _) => Desk { state: held.state, goal: held.goal, ..Desk::refused(13) },
            _ => Desk { state: held.state, goal: held.goal, ..Desk::refused(number) },
        };
        self.same([desk, told], input);
    }

    /// Makes a call on both desks, which must answer the same and leave what is lent as it was.
    fn same_from_both(
        &self,
        plant: &[u8],
        book: &[u8],
        input: &dyn Fn() -> String,
        call: impl Fn(&dyn Desks) -> Desk,
    ) -> Desk {
        let lent = [("plant", plant), ("book", book)];
        let before = bytes_lent(lent);
        let desks = [self.ours, self.second].map(call);
        self.same(desks, input);
        for ((what, lent), before) in lent.into_iter().zip(before) {
            if lent != before {
                self.differ(&format!("the {what} lent is changed"), input);
            }
        }
        desks[0]
    }

    /// Counts a report that is accepted or refused with 13, in which consult says this of what is held.
    fn count_report(&mut self, plant: &[u8], book: &[u8], held: Held, reported: u32, desk: Desk, before: Advice) {
        let goals = number(book, 4);
        let tally = &mut self.tally;
        match (desk.number, before.lost) {
            (0, _) => {
                tally.reports += 1;
                tally.lost_reports += u64::from(desk.lost != 0);
                tally.passing += u64::from(desk.lost == 0 && desk.seek != before.seek);
                tally.all_served += u64::from(desk.lost == 0 && desk.wait == 0 && goals > 1);
                tally.passed_before += u64::from(before.seek != held.goal);
            }
            (_, 0) => match leads(plant, held.state, reported) {
                true => tally.other_move += 1,
                false => tally.no_arrow += 1,
            },
            _ => tally.from_lost += 1,
        }
    }

    fn count(&mut self, number: u32) {
        self.tally.calls += 1;
        if let Some(at) = REFUSALS.iter().position(|&refusal| refusal == number) {
            self.tally.refused[at] += 1;
        }
    }

    /// A promise is kept.
    fn promised(&self, kept: Result<(), &str>, input: &dyn Fn() -> String) {
        if let Err(what) = kept {
            self.differ(what, input);
        }
    }

    fn same<T: PartialEq + Debug>(&self, [ours, second]: [T; 2], input: &dyn Fn() -> String) {
        if ours != second {
            self.differ(&format!("answers {ours:?} and {second:?}"), input);
        }
    }

    fn differ(&self, what: &str, input: &dyn Fn() -> String) -> ! {
        let [ours, second] = [self.ours, self.second].map(|desk| desk.name());
        panic!("{ours} and {second} differ at call {}: {what}\nin {}", self.tally.calls, input())
    }

    /// The input of a call on our desk alone, which is held against something else.
    fn alone(&self, second: &str, input: &dyn Fn() -> String) -> String {
        format!("{} alone, with {second} second: {}", self.ours.name(), input())
    }
}

/// What a desk shows and holds in a state of which consult says this, seeking a goal.
fn held_by(advice: Advice, state: u32, sought: u32) -> Desk {
    let Advice { number, lost, action, wait, seek } = advice;
    let goal = if lost == 0 { seek } else { sought };
    Desk { number, lost, action, wait, seek, state, goal }
}

/// Whether any arrow leads from a state to another.
fn leads(plant: &[u8], state: u32, end: u32) -> bool {
    let arrows = Plant::read(plant).map_or(Vec::new(), |plant| plant.arrows);
    arrows.iter().any(|arrow| [arrow.from, arrow.to].map(u32::from) == [state, end])
}

/// The states that a book keeps.
fn kept_states(rows: &BookView) -> Vec<usize> {
    (0..rows.states).filter(|&state| rows.is_kept(state)).collect()
}
