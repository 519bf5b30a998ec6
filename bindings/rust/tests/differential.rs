//! The proved library against the worklist solver, byte for byte, against the exact gauge and against the second desk.
//! Needs the archive.
//!
//! PLANBOOK_CALLS sets how many calls of each random kind are compared; the binary `soak` runs longer still.

#![deny(warnings)]

mod document;
mod promises;

use planbook::calls::Linked;
use planbook::compare::desks::{self, DeskComparison};
use planbook::compare::gauges::{self, GaugeComparison};
use planbook::compare::{rounds, Comparison};
use planbook::plants::{Family, Random, FAMILIES, WAYS_TO_SETTLE};
use planbook::second::{desk, gauge::Exact, Fast};

/// Where the seeds of the random rounds begin.
const SEED: u64 = 1;

#[test]
fn documents_01_and_02() {
    document::marked_examples(&Linked);
    document::further_examples(&Linked);
    document::drop_lists(&Linked);
    document::previews(&Linked);
    document::previews_of_the_longest(&Linked);
    document::lists(&Linked);
    document::lists_that_drop_with_each_mask(&Linked);
    document::returns(&Linked);
    document::returns_to_invented_books(&Linked);
    document::returns_that_gain_with_each_move(&Linked);
    document::returns_of_the_longest(&Linked);
    document::gained_lists(&Linked);
    document::good_moves(&Linked);
    document::good_moves_of_the_longest(&Linked);
    document::arrivals(&Linked);
    document::refusals(&Linked);
    document::settle::rows(&Linked);
    document::settle::chains(&Linked);
    document::settle::withdrawals(&Linked);
    document::settle::lookups(&Linked);
    document::settle::refusals(&Linked);
    document::index::indexes(&Linked);
    document::index::books_by_index(&Linked);
    document::index::refusals(&Linked);
    document::gauge::all(&Linked);
    document::desk::all(&Linked);
}

/// A test for each promise.
macro_rules! keeps {
    ($($promise:ident)*) => {$(
        #[test]
        fn $promise() {
            promises::$promise(&Linked);
        }
    )*};
}
keeps! {
    drop_lists_are_read_from_the_books
    previews_come_true
    lists_come_to_the_withdrawals_in_turn
    returns_undo_withdrawals
    returns_come_to_a_making
    calls_by_index_come_to_those_without
    lists_of_calls_come_to_a_making
    rows_come_from_what_is_reached
    stages_come_to_plain_books
    stages_never_fall
    sets_are_those_of_the_rule
    following_meets_the_goals
}

#[test]
fn exhaustive_rounds() {
    let mut comparison = Comparison::new(&Linked, &Fast);
    for round in rounds::EXHAUSTIVE_ROUNDS {
        round(&mut comparison);
    }
    println!("{}", comparison.summary());
}

/// How many calls of each random kind are compared.
fn calls_of_a_kind() -> u64 {
    std::env::var("PLANBOOK_CALLS").map_or(300_000, |word| word.parse().expect("a number of calls"))
}

#[test]
fn exhaustive_rounds_of_the_gauge() {
    let mut comparison = GaugeComparison::new(&Linked, &Exact);
    for round in gauges::rounds::EXHAUSTIVE_ROUNDS {
        round(&mut comparison);
    }
    println!("{}", comparison.summary());
}

#[test]
fn random_rounds_of_the_gauge() {
    let calls = calls_of_a_kind();
    // In all rounds together, each sort of refusal and of answer, deviations at ends, and rounded ones.
    let mut counts = [0; 6];
    for (name, round) in gauges::rounds::RANDOM_ROUNDS {
        let mut comparison = GaugeComparison::new(&Linked, &Exact);
        let rounds = rounds::run(&mut comparison, round, SEED, calls);
        println!("{name}, {rounds} rounds from seed {SEED}: {}", comparison.summary());
        counts = std::array::from_fn(|at| counts[at] + comparison.counts()[at]);
    }
    assert!(counts.iter().all(|&many| many > calls / 20), "{counts:?} calls of the gauge");
}

#[test]
fn exhaustive_rounds_of_the_desk() {
    let mut comparison = DeskComparison::new(&Linked, &desk::Plain, &Linked);
    for round in desks::rounds::EXHAUSTIVE_ROUNDS {
        round(&mut comparison);
    }
    println!("{}", comparison.summary());
}

/// All families, with as many states as there can be among them.
#[test]
fn walks_of_the_desk() {
    let mut comparison = DeskComparison::new(&Linked, &desk::Plain, &Linked);
    for family in FAMILIES {
        for states in family.quick_sizes(&[2, 31, 64, 300]) {
            desks::rounds::walk_family(&mut comparison, family, states, 1_000);
        }
    }
    for family in [Family::Ring, Family::LadderRing, Family::Grid, Family::Chain] {
        desks::rounds::walk_family(&mut comparison, family, 1024, 1_500);
    }
    println!("{}", comparison.summary());
    let walked = comparison.walked();
    assert!(walked.longest > 500 && walked.just > 2_000 && walked.anew > 300 && walked.met > 2_000, "{walked:?}");
}

#[test]
fn random_rounds_of_the_desk() {
    let calls = calls_of_a_kind();
    // In all rounds together, each refusal, each sort of answer, and on walks goals met, just in time, passed and
    // sought anew, and books of each call that writes one, and of plants that must settle.
    let (mut refused, mut counts, mut walked, mut ways) = ([0; 7], [0; 10], [0; 6], [0; 7]);
    for (name, round) in desks::rounds::RANDOM_ROUNDS {
        let mut comparison = DeskComparison::new(&Linked, &desk::Plain, &Linked);
        let rounds = rounds::run(&mut comparison, round, SEED, calls);
        println!("{name}, {rounds} rounds from seed {SEED}: {}", comparison.summary());
        refused = std::array::from_fn(|at| refused[at] + comparison.refused()[at]);
        counts = std::array::from_fn(|at| counts[at] + comparison.counts()[at]);
        let walks = comparison.walked();
        let seen = [walks.steps, walks.met, walks.just, walks.passed, walks.all_met, walks.anew];
        walked = std::array::from_fn(|at| walked[at] + seen[at]);
        let by = walks.ways.iter().chain([&walks.settling]);
        ways.iter_mut().zip(by).for_each(|(many, more)| *many += more);
    }
    println!("refused {refused:?}, answers {counts:?}, on walks {walked:?}, walks by books of each call {ways:?}");
    assert!(refused.iter().all(|&many| many > calls / 20), "{refused:?} refused");
    assert!(counts.iter().all(|&many| many > calls / 100), "{counts:?} answers");
    assert!(walked.iter().all(|&many| many > calls / 50), "{walked:?} on walks");
    assert!(ways.iter().all(|&many| many > calls / 2_000), "{ways:?} walks");
}

#[test]
fn random_rounds() {
    let calls = calls_of_a_kind();
    // In all rounds together, how many consults pass goals, and how many find all of several goals served; in how many
    // lists of withdrawals one after the first drops states, and in how many two or more do; and how many returns list
    // states, and how many have lost a state that the book handed in keeps.
    // How many makes and withdrawals by an index are accepted, how many of them drop some states and keep others, and
    // how many are refused for their index. At last, how many books have stages and keep states, how many of these two
    // stages or more, and how many sets of good moves leave a stage.
    let (mut arrivals, mut lists, mut returns, mut indexes, mut stages) = ([0; 2], [0; 2], [0; 2], [0; 3], [0; 3]);
    for (name, round) in rounds::RANDOM_ROUNDS {
        let mut comparison = Comparison::new(&Linked, &Fast);
        let rounds = rounds::run(&mut comparison, round, SEED, calls);
        println!("{name}, {rounds} rounds from seed {SEED}: {}", comparison.summary());
        arrivals = std::array::from_fn(|at| arrivals[at] + comparison.arrivals()[at]);
        lists = std::array::from_fn(|at| lists[at] + comparison.lists()[at]);
        returns = std::array::from_fn(|at| returns[at] + comparison.returns()[at]);
        indexes = std::array::from_fn(|at| indexes[at] + comparison.indexes()[at]);
        stages = std::array::from_fn(|at| stages[at] + comparison.stages()[at]);
    }
    assert!(arrivals.iter().all(|&many| many > calls / 20), "{arrivals:?} arrivals");
    assert!(lists.iter().all(|&many| many > calls / 100), "{lists:?} lists of withdrawals");
    assert!(returns.iter().all(|&many| many > calls / 50), "{returns:?} returns");
    assert!(indexes.iter().all(|&many| many > calls / 100), "{indexes:?} by an index");
    assert!(stages.iter().all(|&many| many > calls / 20), "{stages:?} with stages");
}

/// All families at their largest: made, each move withdrawn in turn, by single calls and by lists, and some returned.
#[test]
fn families() {
    let mut comparison = Comparison::new(&Linked, &Fast);
    for family in FAMILIES {
        for states in family.quick_sizes(&[1, 2, 31, 64, 300, 1024]) {
            rounds::each_move_in_turn(&mut comparison, &family.build(states, SEED));
            for way in WAYS_TO_SETTLE {
                let model = way.of(family.build(states, SEED), &mut Random::new(SEED));
                rounds::each_move_in_turn(&mut comparison, &model);
            }
        }
    }
    println!("{}", comparison.summary());
}

/// Plants with as many arrows as the library's short arrays have room for, 2,048, and with a few less and more.
#[test]
fn around_the_short_arrays() {
    let mut comparison = Comparison::new(&Linked, &Fast);
    for arrows in 2046..=2050 {
        for seed in SEED..SEED + 3 {
            let mut random = Random::new(seed);
            let mut model = Family::Random.build(512, seed);
            model.arrows.sort_unstable();
            model.arrows.dedup();
            while model.arrows.len() > arrows {
                model.arrows.swap_remove(random.below(model.arrows.len()));
            }
            assert_eq!(model.arrows.len(), arrows);
            rounds::each_move_in_turn(&mut comparison, &model);
            for way in WAYS_TO_SETTLE {
                rounds::each_move_in_turn(&mut comparison, &way.of(model.clone(), &mut random));
            }
        }
    }
    println!("{}", comparison.summary());
}
