//! Desks that are wrong: in which states may follow, in the goal that they seek and show, in what they hold, or in what
//! they refuse.

use planbook::calls::{Calls, Desks, Held};
use planbook::compare::desks::{rounds::RANDOM_ROUNDS, DeskComparison};
use planbook::compare::rounds::run;
use planbook::second::desk::{Fast, Plain};
use planbook::second::format::{in_mask, BookView, Plant};
use planbook::second::{Fast as Planner, Solve, Table};
use planbook::sys::Desk;

use super::{all_into, arrive, differences, if_all_served, leaving_or, one_pass, rule, MayForMust, ShortWaits};

/// What a start is handed.
struct Start<'a> {
    plant: &'a [u8],
    book: &'a [u8],
    state: u32,
}

/// What a report is handed.
#[derive(Clone, Copy)]
struct Report<'a> {
    plant: &'a [u8],
    book: &'a [u8],
    held: Held,
    reported: u32,
}

/// A report in which nothing is refused but with 13: what is lent, what is held, and the state reported.
struct Ready<'a> {
    plant: Plant,
    book: BookView<'a>,
    state: usize,
    goal: usize,
    end: usize,
}

/// A desk with a start and a report of its own.
struct Own {
    name: &'static str,
    start: fn(&Start) -> Desk,
    report: fn(&Report) -> Desk,
}

impl Desks for Own {
    fn name(&self) -> &'static str {
        self.name
    }

    fn start(&self, plant: &[u8], book: &[u8], state: u32) -> Desk {
        (self.start)(&Start { plant, book, state })
    }

    fn report(&self, plant: &[u8], book: &[u8], held: Held, reported: u32) -> Desk {
        (self.report)(&Report { plant, book, held, reported })
    }
}

/// The rules of request (xii).
const RIGHT: Own = Own { name: "right desk", start: |start| start.right(), report: |report| report.right() };

const fn wrong(name: &'static str, report: fn(&Report) -> Desk) -> Own {
    Own { name, report, ..RIGHT }
}

const fn wrong_start(name: &'static str, start: fn(&Start) -> Desk) -> Own {
    Own { name, start, ..RIGHT }
}

impl Start<'_> {
    fn right(&self) -> Desk {
        Fast.start(self.plant, self.book, self.state)
    }

    /// The right answer, but with another goal arrived at in a kept state.
    fn arriving(&self, goal: fn(&BookView, usize) -> usize) -> Desk {
        match (self.right(), BookView::read(self.book, None)) {
            (Desk { number: 0, lost: 0, state, .. }, Ok(book)) => {
                shown(&book, state as usize, goal(&book, state as usize))
            }
            (right, _) => right,
        }
    }
}

impl<'a> Report<'a> {
    fn right(&self) -> Desk {
        Fast.report(self.plant, self.book, self.held, self.reported)
    }

    /// Refused with a number.
    fn left(&self, number: u32) -> Desk {
        Desk { number, state: self.held.state, goal: self.held.goal, ..Desk::default() }
    }

    /// What there is to look at, unless it is refused with 1 to 8.
    fn ready(&self) -> Option<Ready<'a>> {
        let (plant, book) = (Plant::read(self.plant).ok()?, BookView::read(self.book, None).ok()?);
        let [state, goal, end] = [self.held.state, self.held.goal, self.reported].map(|number| number as usize);
        matches!(self.right().number, 0 | 13).then_some(Ready { plant, book, state, goal, end })
    }

    /// The right answer, but with another rule for which states may follow a kept one.
    fn following(&self, follows: fn(&Ready) -> bool) -> Desk {
        match self.ready() {
            Some(ready) if ready.book.is_kept(ready.state) => match follows(&ready) {
                true => ready.answer(ready.sought()),
                false => self.left(13),
            },
            _ => self.right(),
        }
    }

    /// The right answer, but with another goal sought in the state reported.
    fn seeking(&self, sought: fn(&Ready) -> usize) -> Desk {
        match (self.right(), self.ready()) {
            (Desk { number: 0, .. }, Some(ready)) => ready.answer(sought(&ready)),
            (right, _) => right,
        }
    }

    /// The right answer, but with another goal arrived at in a kept state that is reported, from the one sought there.
    fn arriving(&self, goal: fn(&BookView, usize, usize) -> usize) -> Desk {
        match (self.right(), self.ready()) {
            (Desk { number: 0, lost: 0, .. }, Some(ready)) => {
                shown(&ready.book, ready.end, goal(&ready.book, ready.end, ready.sought()))
            }
            (right, _) => right,
        }
    }

    /// The right answer, changed if it is accepted and the state lost, with the goal sought.
    fn losing(&self, change: fn(Desk) -> Desk) -> Desk {
        match self.right() {
            right @ Desk { number: 0, lost: 1, .. } => change(right),
            right => right,
        }
    }

    /// The right answer, changed if it is refused with 13.
    fn refusing(&self, change: fn(&Report, Desk) -> Desk) -> Desk {
        match self.right() {
            right @ Desk { number: 13, .. } => change(self, right),
            right => right,
        }
    }
}

impl Ready<'_> {
    /// The goal arrived at for what is held.
    fn sought(&self) -> usize {
        match self.book.is_kept(self.state) {
            true => arrive(&self.book, self.state, self.goal),
            false => self.goal,
        }
    }

    /// The move given for what is held.
    fn action(&self) -> u16 {
        self.book.entry(self.state, self.sought()).1
    }

    /// Whether a move leads from the state held to the one reported.
    fn leads(&self, action: u16) -> bool {
        self.plant.ends(self.state, action).contains(&self.end)
    }

    /// Whether one of the moves of a mask does.
    fn any_leads(&self, mask: u32) -> bool {
        (0..32).any(|action| in_mask(mask, action) && self.leads(action))
    }

    /// The answer in the state reported when a goal is sought there.
    fn answer(&self, sought: usize) -> Desk {
        match self.book.is_kept(self.end) {
            true => shown(&self.book, self.end, arrive(&self.book, self.end, sought)),
            false => Desk { lost: 1, state: self.end as u32, goal: sought as u32, ..Desk::default() },
        }
    }
}

/// What is shown and held in a kept state for a goal.
fn shown(book: &BookView, state: usize, goal: usize) -> Desk {
    let (wait, action) = book.entry(state, goal);
    let (state, goal) = (state as u32, goal as u32);
    Desk { number: 0, lost: 0, action: action.into(), wait: wait.into(), seek: goal, state, goal }
}

/// Desks with one fault each in which states may follow.
const WRONG_STEPS: [Own; 9] = [
    wrong("any good move", |report| {
        report.following(|ready| {
            let Ready { plant, book, state, .. } = ready;
            ready.any_leads(leaving_or(plant, book, book.mask, *state, rule(book, *state, ready.sought())))
        })
    }),
    wrong("any move that stays in kept states", |report| {
        report.following(|ready| {
            let Ready { plant, book, state, .. } = ready;
            ready.any_leads(all_into(plant, book.mask, *state, |end| book.is_kept(end)))
        })
    }),
    wrong("any available move", |report| report.following(|ready| ready.any_leads(ready.book.mask))),
    wrong("any arrow", |report| report.following(|ready| ready.any_leads(u32::MAX))),
    wrong("any state", |report| report.following(|_| true)),
    wrong("the first end alone", |report| {
        report.following(|ready| ready.plant.ends(ready.state, ready.action()).first() == Some(&ready.end))
    }),
    wrong("the last end alone", |report| {
        report.following(|ready| ready.plant.ends(ready.state, ready.action()).last() == Some(&ready.end))
    }),
    wrong("arrows backward", |report| {
        report.following(|ready| ready.plant.ends(ready.end, ready.action()).contains(&ready.state))
    }),
    wrong("kept states alone", |report| {
        report.following(|ready| ready.leads(ready.action()) && ready.book.is_kept(ready.end))
    }),
];

/// Desks with one fault each in the move of the state held, or in the goal that they seek in the state reported.
const WRONG_GOALS: [Own; 11] = [
    wrong("the move of the goal held", |report| {
        report.following(|ready| ready.leads(ready.book.entry(ready.state, ready.goal).1))
    }),
    wrong("the goal held not passed on", |report| report.seeking(|ready| ready.goal)),
    wrong("goal 0 sought at each report", |report| report.seeking(|_| 0)),
    wrong("the next goal sought at each report", |report| {
        report.seeking(|ready| (ready.sought() + 1) % ready.book.goals)
    }),
    wrong("one goal passed and no more", |report| report.arriving(one_pass)),
    wrong("no goal passed", |report| report.arriving(|_, _, sought| sought)),
    wrong("the next goal where all are served", |report| {
        report.arriving(|book, state, sought| if_all_served(book, state, sought, sought + 1))
    }),
    wrong("goal 0 where all are served", |report| {
        report.arriving(|book, state, sought| if_all_served(book, state, sought, 0))
    }),
    wrong("the last goal where all are served", |report| {
        report.arriving(|book, state, sought| if_all_served(book, state, sought, book.goals - 1))
    }),
    wrong_start("a start that passes no goal", |start| start.arriving(|_, _| 0)),
    wrong_start("a start that seeks the last goal", |start| {
        start.arriving(|book, state| arrive(book, state, book.goals - 1))
    }),
];

/// Desks with one fault each in what they hold.
const WRONG_HELD: [Own; 14] = [
    wrong("the report held when refused", |report| {
        report.refusing(|report, right| Desk { state: report.reported, ..right })
    }),
    wrong("the goal arrived at held when refused", |report| match (report.right(), report.ready()) {
        (right @ Desk { number: 13, .. }, Some(ready)) => Desk { goal: ready.sought() as u32, ..right },
        (right, _) => right,
    }),
    wrong("nothing held when refused", |report| report.refusing(|_, right| Desk::refused(right.number))),
    wrong("nothing held when refused with 8", |report| match report.right() {
        Desk { number: 8, .. } => Desk::refused(8),
        right => right,
    }),
    wrong("goal 0 held when lost", |report| report.losing(|right| Desk { goal: 0, ..right })),
    wrong("the goal held before held when lost", |report| match report.right() {
        right @ Desk { number: 0, lost: 1, .. } => Desk { goal: report.held.goal, ..right },
        right => right,
    }),
    wrong("the state before held when lost", |report| match report.right() {
        right @ Desk { number: 0, lost: 1, .. } => Desk { state: report.held.state, ..right },
        right => right,
    }),
    wrong("the goal sought held", |report| match (report.right(), report.ready()) {
        (right @ Desk { number: 0, .. }, Some(ready)) => Desk { goal: ready.sought() as u32, ..right },
        (right, _) => right,
    }),
    wrong("the goal sought shown when lost", |report| report.losing(|right| Desk { seek: right.goal, ..right })),
    wrong("the lost row shown", |report| report.losing(|right| Desk { action: 65_535, wait: 65_535, ..right })),
    wrong("7 for lost", |report| report.losing(|right| Desk { lost: 7, ..right })),
    wrong_start("goal 0 held by a start", |start| Desk { goal: 0, ..start.right() }),
    wrong_start("the state held by a refused start", |start| match start.right() {
        right @ Desk { number: 1.., .. } => Desk { state: start.state, ..right },
        right => right,
    }),
    wrong_start("a lost start not held", |start| match start.right() {
        right @ Desk { lost: 1, .. } => Desk { state: 0, ..right },
        right => right,
    }),
];

/// Desks with one fault each in what they refuse.
const WRONG_REFUSALS: [Own; 17] = [
    wrong("the report not tested with 8", |report| match report.right() {
        Desk { number: 8, .. } if Report { reported: 0, ..*report }.right().number != 8 => report.left(13),
        right => right,
    }),
    wrong("the goal held not tested with 8", |report| {
        let goals = BookView::read(report.book, None).map_or(1, |book| book.goals as u32);
        let held = Held { goal: report.held.goal % goals, ..report.held };
        match (report.right(), Report { held, ..*report }.right()) {
            (Desk { number: 8, .. }, other) if other.number == 0 => other,
            (right, _) => right,
        }
    }),
    wrong("13 before 8", |report| match (report.right(), BookView::read(report.book, None)) {
        (Desk { number: 8, .. }, Ok(book)) => {
            let state = report.held.state as usize;
            report.left(if state < book.states && !book.is_kept(state) { 13 } else { 8 })
        }
        (right, _) => right,
    }),
    wrong("8 for a lost state held", |report| match report.ready() {
        Some(ready) if !ready.book.is_kept(ready.state) => report.left(8),
        _ => report.right(),
    }),
    wrong("lost for a lost state held", |report| match report.ready() {
        Some(ready) if !ready.book.is_kept(ready.state) => Desk { lost: 1, ..report.left(0) },
        _ => report.right(),
    }),
    wrong("a lost state held left by any report", |report| match report.ready() {
        Some(ready) if !ready.book.is_kept(ready.state) => ready.answer(ready.goal),
        _ => report.right(),
    }),
    wrong("12 for 13", |report| report.refusing(|_, right| Desk { number: 12, ..right })),
    wrong("a refused report shows what it showed", |report| match (report.right(), report.ready()) {
        (right @ Desk { number: 13, .. }, Some(ready)) if ready.book.is_kept(ready.state) => {
            let (wait, action) = ready.book.entry(ready.state, ready.sought());
            Desk { wait: wait.into(), action: action.into(), ..right }
        }
        (right, _) => right,
    }),
    wrong("numbers of 16 bits", |report| {
        let low = |number: u32| number & 0xffff;
        let held = Held { state: low(report.held.state), goal: low(report.held.goal) };
        Report { held, reported: low(report.reported), ..*report }.right()
    }),
    wrong("signed numbers", |report| match report.right() {
        Desk { number: 8, .. } if (report.reported as i32) < 0 => Report { reported: 0, ..*report }.right(),
        right => right,
    }),
    wrong("the book before the plant", |report| match (report.right(), BookView::read(report.book, None)) {
        (Desk { number: 1..=3, .. }, Err(refusal)) => report.left(refusal.number()),
        (right, _) => right,
    }),
    wrong("the plant not looked at but for its arrows", |report| match report.right() {
        Desk { number: 2, .. } => {
            let mut plant = report.plant.to_vec();
            let labels = 2 * usize::from(u16::from_le_bytes([plant[0], plant[1]]));
            plant[16..16 + labels].fill(0);
            Report { plant: &plant, ..*report }.right()
        }
        right => right,
    }),
    wrong("K not looked at", |report| match report.right() {
        Desk { number: 5, .. } => {
            let mut book = report.book.to_vec();
            super::count_kept(&mut book);
            Report { book: &book, ..*report }.right()
        }
        right => right,
    }),
    wrong("13 for a book of another plant", |report| match report.right() {
        Desk { number: 4, .. } if BookView::read(report.book, None).is_ok() => report.left(13),
        right => right,
    }),
    wrong_start("8 for a start in a lost state", |start| match start.right() {
        Desk { lost: 1, .. } => Desk::refused(8),
        right => right,
    }),
    wrong_start("13 for a start in a lost state", |start| match start.right() {
        Desk { lost: 1, .. } => Desk::refused(13),
        right => right,
    }),
    wrong_start("a start by the book alone", |start| match (start.right(), BookView::read(start.book, None)) {
        (Desk { number: 1..=4, .. }, Ok(book)) if (start.state as usize) < book.states => {
            match book.is_kept(start.state as usize) {
                true => shown(&book, start.state as usize, arrive(&book, start.state as usize, 0)),
                false => Desk { lost: 1, state: start.state, ..Desk::default() },
            }
        }
        (right, _) => right,
    }),
];

/// A planner for which a state is in a goal that it can force with one move.
struct NextIsNear;

impl Solve for NextIsNear {
    const NAME: &'static str = "next is near";

    fn solve(plant: &Plant, mask: u32, within: &[bool]) -> Table {
        let mut table = Planner::solve(plant, mask, within);
        table.waits.iter_mut().filter(|wait| **wait == 1).for_each(|wait| *wait = 0);
        table
    }
}

/// A planner that gives the move of the first goal for all.
struct OneMove;

impl Solve for OneMove {
    const NAME: &'static str = "one move";

    fn solve(plant: &Plant, mask: u32, within: &[bool]) -> Table {
        let mut table = Planner::solve(plant, mask, within);
        table.moves.chunks_exact_mut(plant.goals).for_each(|moves| moves.fill(moves[0]));
        table
    }
}

/// All random rounds, for some calls of each kind.
fn compare(desk: &dyn Desks, second: &dyn Desks) {
    let mut comparison = DeskComparison::new(desk, second, &Planner);
    for (_, round) in RANDOM_ROUNDS {
        run(&mut comparison, round, 1, 3_000);
    }
}

/// Walks by the books of a planner.
fn walk(planner: &dyn Calls) {
    let mut comparison = DeskComparison::new(&RIGHT, &Plain, planner);
    run(&mut comparison, RANDOM_ROUNDS[0].1, 1, 30_000);
}

/// Each wrong desk is found beside the right one by random calls alone.
#[test]
fn wrong_desks_are_found() {
    // No difference: what is found of the others is their faults alone.
    compare(&RIGHT, &Plain);
    let others = || WRONG_GOALS.iter().chain(&WRONG_HELD).chain(&WRONG_REFUSALS);
    let all = || WRONG_STEPS.iter().chain(others());
    differences(all().map(|desk| (desk.name, move || compare(desk, &Plain))), ", plant ");
    // Beside itself a desk shows by what consult says; but which states may follow consult does not tell.
    differences(others().map(|desk| (desk.name, move || compare(desk, desk))), " second: ");
    println!("{} wrong desks", all().count());
    // By the books of wrong planners a right desk does not come to what is promised.
    let planners = [&MayForMust as &dyn Calls, &ShortWaits, &NextIsNear, &OneMove];
    differences(planners.map(|planner| (RIGHT.name, move || walk(planner))).into_iter(), "\nin step ");
}
