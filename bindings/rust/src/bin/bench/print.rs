//! The lines that are printed.

use crate::cases::{mean, Call, Case, Figures, CALLS};
use planbook::calls::Calls;

pub fn print_heading(planners: &[&dyn Calls]) {
    print!("{:<17}{:>6}{:>6}  {:<9}{:>6}", "family", "S", "E", "call", "K");
    for planner in planners {
        print!("{:>13}", format!("{} µs", planner.name()));
    }
    for planner in &planners[1..] {
        print!("{:>13}", format!("{} ratio", planner.name()));
    }
    println!();
}

/// The times of all planners for each call, and how many times as long as the first each other takes.
pub fn print_times(family: &str, cases: &[Case], calls: &[(&str, Call)], figures: &[Figures]) {
    let [states, arrows] = [Case::states, Case::arrows].map(|count| mean(cases.iter().map(count)));
    for (call, (name, _)) in calls.iter().enumerate() {
        let kept = figures[0].kept[call];
        print!("{family:<17}{states:>6.0}{arrows:>6.0}  {name:<9}{kept:>6.0}");
        for figures in figures {
            print!("{:>13.2}", figures.times[call] / 1000.0);
        }
        for other in &figures[1..] {
            print!("{:>13.2}", other.times[call] / figures[0].times[call]);
        }
        println!();
    }
}

/// The growth of each call with twice as many states, as an exponent.
pub fn print_growth(family: &str, calls: &[(&str, Call)], half: &[Figures], whole: &[Figures]) {
    for (call, (name, _)) in calls.iter().enumerate() {
        let growths = half.iter().zip(whole).map(|(half, whole)| exponent(half.times[call], whole.times[call]));
        print_line(family, "growth", name, growths);
    }
}

/// The power of the number of states with which a time grows that is this one, and that one with twice as many.
pub fn exponent(half: f64, whole: f64) -> f64 {
    (whole / half).log2()
}

/// How many times as long as another call one takes.
pub fn print_ratio(family: &str, calls: &[(&str, Call)], [call, to]: [usize; 2], figures: &[Figures]) {
    let ratios = figures.iter().map(|figures| figures.times[call] / figures.times[to]);
    print_line(family, &format!("to {}", calls[to].0), calls[call].0, ratios);
}

/// The geometric mean of such ratios, over the figures of all plants.
pub fn print_mean_ratio([call, to]: [usize; 2], plants: &[Vec<Figures>]) {
    let means = (0..plants[0].len()).map(|planner| {
        let times = plants.iter().map(|figures| &figures[planner].times);
        let logarithms: f64 = times.map(|times| (times[call] / times[to]).ln()).sum();
        (logarithms / plants.len() as f64).exp()
    });
    print_line("all", &format!("to {}", CALLS[to].0), CALLS[call].0, means);
}

/// A figure for each planner that is no time.
pub fn print_line(family: &str, what: &str, call: &str, figures: impl Iterator<Item = f64>) {
    print!("{family:<17}{what:>12}  {call:<9}{:>6}", "");
    for figure in figures {
        print!("{figure:>13.2}");
    }
    println!();
}
