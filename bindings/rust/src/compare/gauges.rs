//! One gauge held against another: the same table, reading and aim, and then the same answer, and nothing changed in
//! what was lent to read. What a gauge says of a call must go with what it says elsewhere, too.
//!
//! A difference is a panic whose message has the call's input, floats with their bits.

use super::{hex, Counts};
use crate::calls::{Gauges, Lists};
use crate::second::gauge::Steps;
use crate::sys::{Place, AT, OPEN};

pub mod rounds;

/// A table of bands that can be changed.
#[derive(Clone, Debug)]
pub struct Sheet {
    /// Two for each band.
    pub kinds: Vec<u8>,
    /// Two for each band.
    pub ends: Vec<f64>,
    /// One for each band.
    pub states: Vec<u32>,
}

impl Sheet {
    /// What is lent.
    pub fn lists(&self) -> Lists<'_> {
        Lists { kinds: &self.kinds, ends: &self.ends, states: &self.states }
    }

    /// Band `at` by itself.
    fn alone(&self, at: usize) -> Sheet {
        let [kinds, ends] = [2 * at..2 * at + 2, 2 * at..2 * at + 2];
        Sheet { kinds: self.kinds[kinds].to_vec(), ends: self.ends[ends].to_vec(), states: vec![self.states[at]] }
    }

    /// The table with another number beside each open end.
    fn with_other_idle_numbers(&self, calls: u64) -> Sheet {
        const NUMBERS: [f64; 7] = [f64::NAN, f64::INFINITY, f64::NEG_INFINITY, 0.0, -0.0, f64::MAX, -1.5];
        let mut sheet = self.clone();
        for (at, (kind, end)) in sheet.kinds.iter().zip(&mut sheet.ends).enumerate() {
            if *kind == OPEN {
                *end = NUMBERS[(calls as usize + at) % NUMBERS.len()];
            }
        }
        sheet
    }

    /// Its ends that are numbers.
    fn numbers(&self) -> impl Iterator<Item = f64> + '_ {
        self.kinds.iter().zip(&self.ends).filter(|(kind, _)| **kind == AT).map(|(_, end)| *end)
    }

    /// Whether it is the same, bit by bit.
    fn is(&self, other: &Sheet) -> bool {
        let bits = |sheet: &Sheet| sheet.ends.iter().map(|end| end.to_bits()).collect::<Vec<_>>();
        self.kinds == other.kinds && bits(self) == bits(other) && self.states == other.states
    }

    /// The lists, with the ends in bits too.
    fn words(&self) -> String {
        let ends: Vec<String> = self.ends.iter().map(|end| float(*end)).collect();
        format!("kinds {}, ends [{}], states {:?}", hex(&self.kinds), ends.join(", "), self.states)
    }
}

/// A float and its bits.
fn float(float: f64) -> String {
    format!("{float:?} ({:#x})", float.to_bits())
}

/// Tables of more bands than this are not taken apart.
const FEW_BANDS: usize = 8;

/// Compares `ours` with `second`, and counts the calls compared.
pub struct GaugeComparison<'a> {
    ours: &'a dyn Gauges,
    second: &'a dyn Gauges,
    calls: u64,
    /// Tables that are refused with 11.
    disordered: u64,
    /// Readings that are refused with 12.
    unreadable: u64,
    /// Deviations that a band holds.
    found: u64,
    /// Deviations in a gap.
    gaps: u64,
    /// Accepted calls in which the deviation is an end of a band.
    on_ends: u64,
    /// Accepted calls in which the deviation is not the exact difference.
    rounded: u64,
}

impl Counts for GaugeComparison<'_> {
    fn calls(&self) -> u64 {
        self.calls
    }
}

impl<'a> GaugeComparison<'a> {
    /// Compares two gauges.
    pub fn new(ours: &'a dyn Gauges, second: &'a dyn Gauges) -> GaugeComparison<'a> {
        GaugeComparison {
            ours,
            second,
            calls: 0,
            disordered: 0,
            unreadable: 0,
            found: 0,
            gaps: 0,
            on_ends: 0,
            rounded: 0,
        }
    }

    /// How many calls were refused with 11 and with 12, found a band and fell in a gap, had a deviation that is an end
    /// of a band, and had one that is not the exact difference.
    pub fn counts(&self) -> [u64; 6] {
        [self.disordered, self.unreadable, self.found, self.gaps, self.on_ends, self.rounded]
    }

    /// What was compared so far, in words.
    pub fn summary(&self) -> String {
        let [ours, second] = [self.ours, self.second].map(|gauge| gauge.name());
        let GaugeComparison { calls, disordered, unreadable, found, gaps, on_ends, rounded, .. } = self;
        format!(
            "{ours} and {second} do not differ in {calls} calls, of which {disordered} are refused for their bands, \
             {unreadable} for their reading, {found} find a band and {gaps} a gap; in {on_ends} the deviation is an \
             end, and in {rounded} it is not the exact difference"
        )
    }

    /// Compares a call, and hands back the answer. An accepted one must be what the same gauge says of the deviation
    /// with an aim of 0, and of each band alone; no answer may change with the numbers beside open ends.
    pub fn place(&mut self, sheet: &Sheet, states: u32, reading: f64, aim: f64) -> Place {
        let input = || {
            let (reading, aim, bands) = (float(reading), float(aim), sheet.words());
            format!("gauge, states {states}, reading {reading}, aim {aim}, {bands}")
        };
        let before = sheet.clone();
        let places = [self.ours, self.second].map(|gauge| gauge.gauge(sheet.lists(), states, reading, aim));
        self.same(places, &input);
        if !sheet.is(&before) {
            self.differ("the lists lent are changed", &input);
        }
        let ask = |sheet: &Sheet, reading, aim| self.ours.gauge(sheet.lists(), states, reading, aim);
        let alone = |second: &str| format!("{} alone, with {second} second: {}", self.ours.name(), input());
        let place = places[0];
        let other = ask(&sheet.with_other_idle_numbers(self.calls), reading, aim);
        self.same([place, other], &|| alone("other numbers beside open ends"));
        if place.number == 0 {
            let deviation = reading - aim;
            self.same([place, ask(sheet, deviation, 0.0)], &|| alone("the deviation"));
            if sheet.states.len() <= FEW_BANDS {
                let single = |at| ask(&sheet.alone(at), reading, aim);
                let held: Vec<Place> = (0..sheet.states.len()).map(single).filter(|one| one.found != 0).collect();
                let expected: Vec<Place> = (place.found != 0).then_some(place).into_iter().collect();
                self.same([expected, held], &|| alone("each band by itself"));
            }
        }
        self.count(sheet, place, reading, aim);
        place
    }

    fn count(&mut self, sheet: &Sheet, place: Place, reading: f64, aim: f64) {
        self.calls += 1;
        match (place.number, place.found) {
            (11, _) => self.disordered += 1,
            (12, _) => self.unreadable += 1,
            (_, 0) => self.gaps += 1,
            _ => self.found += 1,
        }
        if place.number == 0 {
            let exact = Steps::of(reading).zip(Steps::of(aim)).map(|(reading, aim)| reading.less(&aim));
            self.on_ends += u64::from(sheet.numbers().any(|end| end == reading - aim));
            self.rounded += u64::from(exact != Steps::of(reading - aim));
        }
    }

    fn same<T: PartialEq + std::fmt::Debug>(&self, [ours, second]: [T; 2], input: &dyn Fn() -> String) {
        if ours != second {
            self.differ(&format!("answers {ours:?} and {second:?}"), input);
        }
    }

    fn differ(&self, what: &str, input: &dyn Fn() -> String) -> ! {
        let [ours, second] = [self.ours, self.second].map(|gauge| gauge.name());
        panic!("{ours} and {second} differ at call {}: {what}\nin {}", self.calls, input())
    }
}
