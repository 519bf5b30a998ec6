//! Single plants: the longest one, in which is looked up, and those that are slow to make.

use std::hint::black_box;

use crate::cases::{accepted, kept_in, time_calls, Call, Case};
use crate::clock::cpu_time;
use crate::print::{exponent, print_ratio, print_times};
use planbook::calls::Calls;
use planbook::plants::{self, Family, Model, FAMILIES};
use planbook::second::Plain;

/// How many stages the slow plants have, the states of their tails and of their paths, and goals.
const SLOW: [[u16; 4]; 4] = [[510, 512, 0, 1], [510, 512, 0, 8], [128, 128, 128, 8], [200, 100, 100, 1]];

/// Consult in the last state and in the first, the check of the plant, and moves in the first state and in the last,
/// for the last goal.
const LOOKUPS: [(&str, Call); 5] = [
    ("in last", |planner, case| consult(planner, case, case.states() - 1)),
    ("passing", |planner, case| consult(planner, case, 0)),
    ("check", check),
    ("moves", |planner, case| moves(planner, case, 0)),
    ("busiest", |planner, case| moves(planner, case, case.states() - 1)),
];

fn consult(planner: &dyn Calls, case: &Case, state: u32) -> u32 {
    accepted(black_box(planner.consult(&case.book, state, last_goal(case))).number);
    kept_in(&case.book)
}

fn moves(planner: &dyn Calls, case: &Case, state: u32) -> u32 {
    accepted(black_box(planner.moves(&case.plant, &case.book, state, last_goal(case))).number);
    kept_in(&case.book)
}

fn check(planner: &dyn Calls, case: &mut Case) -> u32 {
    assert_eq!(black_box(planner.make(&case.plant, case.model.every_move(), &mut [])).number, 7);
    kept_in(&case.book)
}

fn last_goal(case: &Case) -> u32 {
    u32::from(case.model.goals) - 1
}

/// Consult and moves for the longest plant.
pub fn print_lookups(planners: &[&dyn Calls]) {
    let mut cases = [Case::new(plants::longest())];
    let figures: Vec<_> = planners.iter().map(|planner| time_calls(*planner, &LOOKUPS, &mut cases)).collect();
    print_times("longest", &cases, &LOOKUPS, &figures);
    for call in 1..LOOKUPS.len() {
        print_ratio("longest", &LOOKUPS, [call, 0], &figures);
    }
}

/// The slow plants, one make each.
pub fn print_slow(planners: &[&dyn Calls]) {
    let planners: Vec<&dyn Calls> = planners.iter().copied().filter(|planner| planner.name() != Plain.name()).collect();
    for family in FAMILIES.into_iter().filter(|family| family.is_slow()) {
        print_slow_family(&planners, family);
    }
    print_once(&planners, "gates", &plants::gates());
    for [stages, tail, path, goals] in SLOW {
        let name = format!("slow, {stages} stages, tail {tail}, path {path}, {goals} goals");
        print_once(&planners, &name, &plants::slow_stages(stages, tail, path, goals));
    }
}

/// One plant of a slow family with 512 states and one with 1,024, and the growth.
fn print_slow_family(planners: &[&dyn Calls], family: Family) {
    let [half, whole] = [512, 1024].map(|states| print_once(planners, family.name(), &family.build(states, 1)));
    print!("{}, growth:", family.name());
    for (planner, (half, whole)) in planners.iter().zip(half.into_iter().zip(whole)) {
        print!(" {} {:.2}", planner.name(), exponent(half, whole));
    }
    println!();
}

/// How long one make takes, in seconds.
fn print_once(planners: &[&dyn Calls], name: &str, model: &Model) -> Vec<f64> {
    let (plant, mut book) = (model.bytes(), vec![0; model.book_length()]);
    print!("{name}, {} states:", model.labels.len());
    let make = |planner: &&dyn Calls| {
        let start = cpu_time();
        accepted(planner.make(&plant, model.every_move(), &mut book).number);
        let time = (cpu_time() - start) as f64 / 1e9;
        print!(" {} {time:.4} s", planner.name());
        time
    };
    let times = planners.iter().map(make).collect();
    println!();
    times
}
