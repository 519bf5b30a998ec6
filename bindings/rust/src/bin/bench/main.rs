//! How long the calls take: the proved library (with the feature `linked`), the plain solver and the worklist solver,
//! in one run on the same plants.
//!
//! Of each family and size twelve plants are measured in turn, so that no plant is learnt by heart by the machine's
//! branch predictor, or one if the family leaves nothing to chance. A time is the mean over these plants, the least
//! over several passes, in CPU microseconds; buffers are reused and not cleared between calls. Where a call takes long
//! a pass has fewer plants, or there is one pass only. S, E and K are the means over the plants.
//!
//! `make` is with all moves in service, `withdraw` takes the highest move out of that book, `preview` says what that
//! costs, `remake` makes the same book afresh, and `return` puts the move back in it, which gives the first book again.
//! `list` takes the upper half of the moves out of the book that was made, from the highest down, by one list of 16
//! masks of one move each; `singles` does that by 16 withdrawals, each from the book of the one before, and `union` by
//! one withdrawal of all these moves. `consult` is the mean over some states and goals. `index` builds the plant's
//! index; `indexed` is `make` and `w-indexed` is `withdraw`, both by an index that was built before. K is how many states
//! the book keeps that is written last, previewed or consulted. A ratio above 1 says how many times as long the other
//! solver takes as the first column does.
//!
//! After a family's sizes stands the growth of each call from 512 states to 1,024, as an exponent: 1 is linear in the
//! states, 2 quadratic. Then, with the most states, how many times as long a preview takes as withdraw, return as make,
//! list as union, singles as list, and index, make by index and withdraw by index as make and withdraw without. After
//! all families stands how many times as long return, make by index and withdraw by index take as make and withdraw:
//! the geometric mean over all families and sizes.
//!
//! For each family stand then the plants that must settle, with the most states: with all states settled, with every
//! other and with most; the most stages that one of them has; make and withdraw, with and without an index, and how
//! many times as long as for the plants as they were they take (`to plain`).
//!
//! After all families stand consult and moves for the longest plant: consult in a state that serves no goal (`in
//! last`), and in one that serves all of them (`passing`); `check`, a make that is refused for want of room, so that it
//! checks the plant and no more; moves in the state that serves all goals, which has one arrow, and in the busiest state
//! there can be; and how many times as long as the first consult each solver takes for these.
//!
//! Then stands the gauge: a call with 1, 8 and 64 bands, in nanoseconds, for the library and for what one writes by
//! hand with the machine's floats, over 64 tables with 16 readings each in turn.
//!
//! Then stands the desk: a start, a report and a wrong report, which is refused with 13, in the longest plant, in a
//! ring of 64 states, from 16 states in turn, and in strip plant P, in microseconds, for the library and for a desk that
//! is written by hand for speed and checks plant and book in each call, too.
//!
//! At the end stand plants that are slow to make, without settling and with it: one make each, in seconds, by all but
//! the plain solver, and for slow families the growth of that from 512 states to 1,024.
//!
//! `bench --count FAMILY STATES [PLANTS [SOLVER]]` measures nothing: it makes one make and one withdrawal, one index
//! and one of each by it for each of so many plants of a family (twelve), by one solver (the first), for a tool that
//! counts instructions, as `tests/counts.sh` does. `bench --families` prints the names of the families that are not slow, and
//! `bench --only FAMILY...` measures no others; `gauge` stands for the gauge there, and `desk` for the desk.

mod cases;
mod clock;
mod count;
mod desk;
mod gauge;
mod print;
mod slow;

use cases::{cases_of, settled_cases, time_calls, Figures, CALLS, SETTLED_CALLS};
use planbook::calls::Calls;
use planbook::plants::{Family, FAMILIES, WAYS_TO_SETTLE};
use planbook::second::{Fast, Plain};
use print::{print_growth, print_heading, print_line, print_mean_ratio, print_ratio, print_times};

const SIZES: [u16; 4] = [64, 256, 512, 1024];

/// What is measured beside the planners, by the name by which it is asked for.
const OTHERS: [(&str, fn()); 2] = [("gauge", gauge::print_gauge), ("desk", desk::print_desk)];

/// How many plants of a family are measured in turn.
const PLANTS: u64 = 12;

/// Pairs of calls by their names in [`CALLS`]: how many times as long the first takes as the second is printed.
const RATIOS: [[&str; 2]; 7] = [
    ["preview", "withdraw"],
    ["return", "make"],
    ["list", "union"],
    ["singles", "list"],
    ["index", "make"],
    ["indexed", "make"],
    ["w-indexed", "withdraw"],
];

/// Those of which the mean over all families and sizes is printed, too.
const MEAN_RATIOS: [[&str; 2]; 3] = [["return", "make"], ["indexed", "make"], ["w-indexed", "withdraw"]];

fn main() {
    #[cfg(feature = "linked")]
    let planners: Vec<&dyn Calls> = vec![&planbook::calls::Linked, &Plain, &Fast];
    #[cfg(not(feature = "linked"))]
    let planners: Vec<&dyn Calls> = vec![&Plain, &Fast];

    let words: Vec<String> = std::env::args().skip(1).collect();
    match words.iter().map(String::as_str).collect::<Vec<_>>()[..] {
        [] => print_all(&planners),
        ["--only", ref names @ ..] => print_only(&planners, names),
        ["--families"] => quick_families().for_each(|family| println!("{}", family.name())),
        ["--count", family, states, ref more @ ..] if more.len() <= 2 => {
            count::run(&planners, family, states, more.first().copied(), more.get(1).copied());
        }
        _ => panic!("bench, bench --only FAMILY..., bench --families or bench --count FAMILY STATES [PLANTS [SOLVER]]"),
    }
}

fn print_all(planners: &[&dyn Calls]) {
    print_heading(planners);
    let mut all = Vec::new();
    for family in quick_families() {
        all.extend(print_family(planners, family));
    }
    for ratio in MEAN_RATIOS {
        print_mean_ratio(ratio.map(place), &all);
    }
    slow::print_lookups(planners);
    OTHERS.iter().for_each(|(_, print)| print());
    slow::print_slow(planners);
}

/// The families of these names, the gauge or the desk, and nothing else.
fn print_only(planners: &[&dyn Calls], names: &[&str]) {
    let is_other = |name: &&&str| OTHERS.iter().any(|(other, _)| other == *name);
    if !names.iter().all(|name| is_other(&name)) {
        print_heading(planners);
    }
    for name in names.iter().filter(|name| !is_other(name)) {
        let family = quick_families().find(|family| family.name() == *name).expect("the name of a family");
        print_family(planners, family);
    }
    OTHERS.iter().filter(|(name, _)| names.contains(name)).for_each(|(_, print)| print());
}

/// The families that all calls are measured on.
fn quick_families() -> impl Iterator<Item = Family> {
    FAMILIES.into_iter().filter(|family| !family.is_slow())
}

/// The place of a call in [`CALLS`].
fn place(name: &str) -> usize {
    CALLS.iter().position(|call| call.0 == name).expect("the name of a call")
}

/// All sizes of a family; answers the figures of each.
fn print_family(planners: &[&dyn Calls], family: Family) -> Vec<Vec<Figures>> {
    let mut sizes: Vec<Vec<Figures>> = Vec::new();
    for states in SIZES {
        eprintln!("{} with {states} states", family.name());
        let mut cases = cases_of(family, states, PLANTS);
        sizes.push(planners.iter().map(|planner| time_calls(*planner, &CALLS, &mut cases)).collect());
        print_times(family.name(), &cases, &CALLS, &sizes[sizes.len() - 1]);
    }
    let [.., half, most] = &sizes[..] else { panic!("two sizes at least") };
    print_growth(family.name(), &CALLS, half, most);
    for ratio in RATIOS {
        print_ratio(family.name(), &CALLS, ratio.map(place), most);
    }
    print_settled(planners, family, most);
    sizes
}

/// The plants of a family that must settle, with the most states, beside those that need not.
fn print_settled(planners: &[&dyn Calls], family: Family, plain: &[Figures]) {
    for way in WAYS_TO_SETTLE {
        eprintln!("{}, {}", family.name(), way.name());
        let mut cases = settled_cases(family, SIZES[SIZES.len() - 1], PLANTS, way);
        let figures: Vec<_> = planners.iter().map(|planner| time_calls(*planner, &SETTLED_CALLS, &mut cases)).collect();
        let stages = cases.iter().map(|case| case.latest_stage()).max();
        println!("{}, {}, stages {}", family.name(), way.name(), stages.unwrap_or(0));
        print_times(family.name(), &cases, &SETTLED_CALLS, &figures);
        for (call, (name, _)) in SETTLED_CALLS.iter().enumerate() {
            let plain = plain.iter().map(|plain| plain.times[place(name)]);
            let ratios = figures.iter().zip(plain).map(|(settled, plain)| settled.times[call] / plain);
            print_line(family.name(), "to plain", name, ratios);
        }
    }
}
