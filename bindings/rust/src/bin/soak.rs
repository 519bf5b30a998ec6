//! Compares the proved library with the worklist solver for as many calls as asked:
//! `soak [CALLS [SEED]]`, 10,000,000 calls from seed 1 if not said. Then as many calls of the gauge with the exact one,
//! and as many of the desk with the second one.

use planbook::calls::Linked;
use planbook::compare::desks::{self, DeskComparison};
use planbook::compare::gauges::{self, GaugeComparison};
use planbook::compare::{rounds, Comparison, Counts};
use planbook::second::{desk, gauge::Exact, Fast};

/// How many calls of one kind are compared before the next kind has its turn.
const TURN: u64 = 50_000;

fn main() {
    let mut words = std::env::args().skip(1).map(|word| word.parse::<u64>().expect("CALLS and SEED are numbers"));
    let calls = words.next().unwrap_or(10_000_000);
    let first_seed = words.next().unwrap_or(1);
    let mut comparison = Comparison::new(&Linked, &Fast);
    for round in rounds::EXHAUSTIVE_ROUNDS {
        round(&mut comparison);
    }
    let mut seeds = [first_seed; rounds::RANDOM_ROUNDS.len()];
    while comparison.calls() < calls {
        for ((name, round), seed) in rounds::RANDOM_ROUNDS.into_iter().zip(&mut seeds) {
            eprintln!("{} calls compared; {name} from seed {seed}", comparison.calls());
            *seed += rounds::run(&mut comparison, round, *seed, TURN);
        }
    }
    println!("{}; seeds {first_seed} to {seeds:?}", comparison.summary());
    compare_gauges(calls, first_seed);
    compare_desks(calls, first_seed);
}

/// The gauge, for so many calls.
fn compare_gauges(calls: u64, first_seed: u64) {
    let mut comparison = GaugeComparison::new(&Linked, &Exact);
    for round in gauges::rounds::EXHAUSTIVE_ROUNDS {
        round(&mut comparison);
    }
    let mut seeds = [first_seed; gauges::rounds::RANDOM_ROUNDS.len()];
    while comparison.calls() < calls {
        for ((name, round), seed) in gauges::rounds::RANDOM_ROUNDS.into_iter().zip(&mut seeds) {
            eprintln!("{} calls of the gauge compared; {name} from seed {seed}", comparison.calls());
            *seed += rounds::run(&mut comparison, round, *seed, TURN);
        }
    }
    println!("{}; seeds {first_seed} to {seeds:?}", comparison.summary());
}

/// The desk, for so many calls.
fn compare_desks(calls: u64, first_seed: u64) {
    let mut comparison = DeskComparison::new(&Linked, &desk::Plain, &Linked);
    for round in desks::rounds::EXHAUSTIVE_ROUNDS {
        round(&mut comparison);
    }
    let mut seeds = [first_seed; desks::rounds::RANDOM_ROUNDS.len()];
    while comparison.calls() < calls {
        for ((name, round), seed) in desks::rounds::RANDOM_ROUNDS.into_iter().zip(&mut seeds) {
            eprintln!("{} calls of the desk compared; {name} from seed {seed}", comparison.calls());
            *seed += rounds::run(&mut comparison, round, *seed, TURN);
        }
    }
    println!("{}; seeds {first_seed} to {seeds:?}", comparison.summary());
}
