//! The desk: starts and reports in the longest plant and in small ones, beside a desk that is written by hand for
//! speed.

use std::hint::black_box;

use crate::clock::mean_in_turn;
use planbook::calls::{Calls, Desks, Held};
use planbook::plants::{self, Family, Model};
use planbook::second::desk::Fast as FastDesk;
use planbook::second::format::{BookView, Plant};
use planbook::second::Fast;

/// From how many states at the most calls are measured in turn.
const STATES: usize = 16;

/// How often the desks are measured, one after another; the least time of each is printed.
const TURNS: usize = 5;

/// A plant with its book, and what is reported.
struct Case {
    name: &'static str,
    plant: Vec<u8>,
    book: Vec<u8>,
    /// What is held, an end of the move given there, and a state that is none, if there is one.
    reports: Vec<(Held, u32, Option<u32>)>,
}

impl Case {
    /// With reports from kept states, evenly spread, the last one included.
    fn new(name: &'static str, model: &Model) -> Case {
        let (plant, mut book) = (model.bytes(), vec![0; model.book_length()]);
        assert_eq!(Fast.make(&plant, model.every_move(), &mut book).number, 0, "the plant is accepted");
        let (arrows, rows) = (Plant::read(&plant).expect("a plant"), BookView::read(&book, None).expect("a book"));
        let kept: Vec<usize> = (0..rows.states).filter(|&state| rows.is_kept(state)).collect();
        let report = |&state: &usize| {
            let desk = FastDesk.start(&plant, &book, state as u32);
            let ends = arrows.ends(state, desk.action as u16);
            let none = (0..rows.states).rev().find(|end| !ends.contains(end)).map(|end| end as u32);
            (Held { state: desk.state, goal: desk.goal }, ends[ends.len() / 2] as u32, none)
        };
        let reports = kept.iter().rev().step_by(kept.len().div_ceil(STATES)).map(report).collect();
        Case { name, plant, book, reports }
    }
}

/// A call that is measured, for what is held and the states that are reported; it must answer this number.
type Call = fn(&dyn Desks, &Case, &(Held, u32, Option<u32>)) -> (u32, u32);

/// A start in the state held, the right report, and a wrong one.
const CALLS: [(&str, Call); 3] = [
    ("start", |desk, case, (held, _, _)| (desk.start(&case.plant, &case.book, held.state).number, 0)),
    ("report", |desk, case, (held, end, _)| (desk.report(&case.plant, &case.book, *held, *end).number, 0)),
    ("wrong report", |desk, case, (held, end, none)| {
        let told = if none.is_some() { 13 } else { 0 };
        (desk.report(&case.plant, &case.book, *held, none.unwrap_or(*end)).number, told)
    }),
];

/// The mean times of the calls, in microseconds, of the library and of [`FastDesk`], or of that alone.
pub fn print_desk() {
    #[cfg(feature = "linked")]
    let desks: Vec<&dyn Desks> = vec![&planbook::calls::Linked, &FastDesk];
    #[cfg(not(feature = "linked"))]
    let desks: Vec<&dyn Desks> = vec![&FastDesk];

    let models = [plants::longest(), Family::Ring.build(64, 1), plants::strip()];
    for (name, model) in ["longest", "ring of 64", "strip"].into_iter().zip(models) {
        let case = Case::new(name, &model);
        for (name, call) in CALLS {
            eprintln!("desk, {}, {name}", case.name);
            let mut times = vec![f64::INFINITY; desks.len()];
            for (desk, time) in (0..TURNS).flat_map(|_| desks.iter().zip(0..)).collect::<Vec<_>>() {
                times[time] = times[time].min(time_call(*desk, &case, call));
            }
            print!("desk, {}, {name}:", case.name);
            for (desk, time) in desks.iter().zip(&times) {
                print!(" {} {:.3} µs", desk.name(), time / 1000.0);
            }
            for (desk, time) in desks.iter().zip(&times).skip(1) {
                print!(", {} ratio {:.2}", desk.name(), time / times[0]);
            }
            println!();
        }
    }
}

/// The mean time of a call, in nanoseconds.
fn time_call(desk: &dyn Desks, case: &Case, call: Call) -> f64 {
    let mut reports = case.reports.clone();
    mean_in_turn(&mut reports, |report| {
        let (number, told) = black_box(call(desk, black_box(case), report));
        assert_eq!(number, told, "the calls that are measured are answered as they should be");
    })
}
