//! The gauge: a call with tables of a few sizes, beside what one writes by hand.

use std::hint::black_box;

use crate::clock::mean_in_turn;
use planbook::calls::Gauges;
use planbook::compare::gauges::{rounds::sheet_of, Sheet};
use planbook::plants::Random;
use planbook::second::gauge::Plain;

const BANDS: [usize; 3] = [1, 8, 64];

/// How many tables of a size are measured in turn, and how many readings with each.
const TABLES: u64 = 64;
const READINGS: usize = 16;

/// How often the gauges are measured, one after another; the least time of each is printed.
const TURNS: usize = 5;

/// A table, S, and readings with an aim of 0: its ends, so that some are in bands and some in gaps.
struct Case {
    sheet: Sheet,
    states: u32,
    readings: Vec<f64>,
}

impl Case {
    fn new(bands: usize, random: &mut Random) -> Case {
        let (sheet, states) = sheet_of(bands, random);
        let ends: Vec<f64> = sheet.ends.iter().copied().filter(|end| end.is_finite()).collect();
        let mut any_end = || ends.get(random.below(ends.len().max(1))).copied().unwrap_or(0.0);
        let readings = (0..READINGS).map(|_| any_end()).collect();
        Case { sheet, states, readings }
    }
}

/// The mean time of a call for each size, in nanoseconds, of the library and of [`Plain`], or of that alone.
pub fn print_gauge() {
    #[cfg(feature = "linked")]
    let gauges: Vec<&dyn Gauges> = vec![&planbook::calls::Linked, &Plain];
    #[cfg(not(feature = "linked"))]
    let gauges: Vec<&dyn Gauges> = vec![&Plain];

    for bands in BANDS {
        eprintln!("gauge, bands {bands}");
        let mut cases: Vec<Case> = (1..=TABLES).map(|seed| Case::new(bands, &mut Random::new(seed))).collect();
        let mut times = vec![f64::INFINITY; gauges.len()];
        for (gauge, time) in (0..TURNS).flat_map(|_| gauges.iter().zip(0..)).collect::<Vec<_>>() {
            times[time] = times[time].min(time_call(*gauge, &mut cases));
        }
        print!("gauge, bands {bands}:");
        for (gauge, time) in gauges.iter().zip(&times) {
            print!(" {} {time:.1} ns", gauge.name());
        }
        for (gauge, time) in gauges.iter().zip(&times).skip(1) {
            print!(", {} ratio {:.2}", gauge.name(), time / times[0]);
        }
        println!();
    }
}

/// The mean time of a call, in nanoseconds.
fn time_call(gauge: &dyn Gauges, cases: &mut [Case]) -> f64 {
    let time = mean_in_turn(cases, |case| {
        for &reading in &case.readings {
            let place = gauge.gauge(black_box(case.sheet.lists()), case.states, reading, 0.0);
            assert_eq!(black_box(place).number, 0, "the calls that are measured are accepted");
        }
    });
    time / READINGS as f64
}
