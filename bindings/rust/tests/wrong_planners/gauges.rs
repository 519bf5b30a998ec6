//! Gauges that are wrong: in what they take for a table in order or for a reading, in where 12 stands, or in the band
//! that they find.

use planbook::calls::{Gauges, Lists};
use planbook::compare::gauges::{rounds::RANDOM_ROUNDS, GaugeComparison};
use planbook::compare::rounds::run;
use planbook::second::gauge::Exact;
use planbook::sys::{Place, AT, MOST_BANDS, OPEN};

use super::differences;

/// A band as it is lent: kind and number of the lower end, of the upper one, and the state.
#[derive(Clone, Copy)]
struct Band {
    lower: (u8, f64),
    upper: (u8, f64),
    state: u32,
}

/// What the gauge shows: the reading, the aim, and the one less the other.
#[derive(Clone, Copy)]
struct Shown {
    reading: f64,
    aim: f64,
    deviation: f64,
}

/// A gauge by the machine's floats, with a way of its own to do each part.
struct Own {
    name: &'static str,
    /// Whether so many bands are accepted.
    many: fn(usize) -> bool,
    /// Whether lists of so many kinds and ends go with so many bands.
    fit: fn(usize, usize, usize) -> bool,
    /// Whether an end is one, by its kind and number.
    is_end: fn((u8, f64)) -> bool,
    /// Whether a band has something between its ends.
    has_room: fn(&Band) -> bool,
    /// Whether a state is below S.
    is_state: fn(u32, u32) -> bool,
    /// Whether a band may follow another.
    follows: fn(&Band, &Band) -> bool,
    readable: fn(&Shown) -> bool,
    /// Whether 12 comes before 11.
    reading_first: bool,
    /// Whether a band holds the deviation.
    holds: fn(&Band, &Shown) -> bool,
    /// The band picked, from the bands and those of them that hold the deviation.
    pick: fn(&[Band], Vec<usize>, &Shown) -> Option<usize>,
    /// What becomes of the answer, for the number of states.
    answer: fn(Place, u32) -> Place,
}

/// The rules of request (xi).
const RIGHT: Own = Own {
    name: "right gauge",
    many: |count| (1..=MOST_BANDS).contains(&count),
    fit: |kinds, ends, count| kinds == 2 * count && ends == 2 * count,
    is_end: |(kind, number)| kind == OPEN || kind == AT && number.is_finite(),
    has_room: |band| either_open(band) || band.lower.1 < band.upper.1,
    is_state: |state, states| state < states,
    follows: |before, next| before.upper.0 == AT && next.lower.0 == AT && before.upper.1 <= next.lower.1,
    readable: |shown| [shown.reading, shown.aim, shown.deviation].iter().all(|float| float.is_finite()),
    reading_first: false,
    holds: |band, shown| from(band, shown.deviation) && under(band, shown.deviation),
    pick: |_, holding, _| holding.first().copied(),
    answer: |place, _| place,
};

fn either_open(band: &Band) -> bool {
    band.lower.0 == OPEN || band.upper.0 == OPEN
}

fn from(band: &Band, deviation: f64) -> bool {
    band.lower.0 == OPEN || band.lower.1 <= deviation
}

fn under(band: &Band, deviation: f64) -> bool {
    band.upper.0 == OPEN || deviation < band.upper.1
}

fn up_to(band: &Band, deviation: f64) -> bool {
    band.upper.0 == OPEN || deviation <= band.upper.1
}

/// Gauges with one fault each in what they take for a table in order.
const WRONG_TABLES: [Own; 21] = [
    Own { name: "63 bands at the most", many: |count| (1..=63).contains(&count), ..RIGHT },
    Own { name: "65 bands accepted", many: |count| (1..=65).contains(&count), ..RIGHT },
    Own { name: "no band accepted", many: |count| count <= MOST_BANDS, ..RIGHT },
    Own { name: "a kind more accepted", fit: |kinds, ends, count| kinds / 2 == count && ends == 2 * count, ..RIGHT },
    Own { name: "an end more accepted", fit: |kinds, ends, count| kinds == 2 * count && ends / 2 == count, ..RIGHT },
    Own {
        name: "a state more accepted",
        fit: |kinds, ends, count| kinds == ends && kinds.div_ceil(2) <= count,
        ..RIGHT
    },
    Own { name: "any kind but 0 at a number", is_end: |(kind, number)| kind == OPEN || number.is_finite(), ..RIGHT },
    Own { name: "kind 2 open", is_end: |(kind, number)| kind % 2 == 0 || kind == AT && number.is_finite(), ..RIGHT },
    Own {
        name: "numbers beside open ends looked at",
        is_end: |(kind, number)| kind <= AT && number.is_finite(),
        ..RIGHT
    },
    Own {
        name: "undefined ends let through",
        is_end: |(kind, number)| kind == OPEN || kind == AT && !number.is_infinite(),
        has_room: |band| either_open(band) || !is_at_least(band.lower.1, band.upper.1),
        follows: |before, next| before.upper.0 == AT && next.lower.0 == AT && !is_above(before.upper.1, next.lower.1),
        ..RIGHT
    },
    Own {
        name: "infinite ends let through",
        is_end: |(kind, number)| kind == OPEN || kind == AT && !number.is_nan(),
        ..RIGHT
    },
    Own { name: "empty bands accepted", has_room: |band| either_open(band) || band.lower.1 <= band.upper.1, ..RIGHT },
    Own {
        name: "zeros told apart",
        has_room: |band| either_open(band) || band.lower.1.total_cmp(&band.upper.1).is_lt(),
        ..RIGHT
    },
    Own {
        name: "zeros told apart between bands",
        follows: |before, next| {
            before.upper.0 == AT && next.lower.0 == AT && before.upper.1.total_cmp(&next.lower.1).is_le()
        },
        ..RIGHT
    },
    Own { name: "bands turned about accepted", has_room: |_| true, ..RIGHT },
    Own {
        name: "touching bands refused",
        follows: |before, next| before.upper.0 == AT && next.lower.0 == AT && before.upper.1 < next.lower.1,
        ..RIGHT
    },
    Own {
        name: "bands that begin later accepted",
        follows: |before, next| before.upper.0 == AT && next.lower.0 == AT && before.lower.1 < next.lower.1,
        ..RIGHT
    },
    Own {
        name: "open ends inside accepted",
        follows: |before, next| before.upper.0 == OPEN || next.lower.0 == OPEN || before.upper.1 <= next.lower.1,
        ..RIGHT
    },
    Own { name: "any order accepted", follows: |_, _| true, ..RIGHT },
    Own { name: "state S accepted", is_state: |state, states| state <= states, ..RIGHT },
    Own { name: "states as signed numbers", is_state: |state, states| (state as i32) < states as i32, ..RIGHT },
];

fn is_at_least(one: f64, other: f64) -> bool {
    one >= other
}

fn is_above(one: f64, other: f64) -> bool {
    one > other
}

/// Gauges with one fault each in what they take for a reading, or in its place among the refusals.
const WRONG_READINGS: [Own; 5] = [
    Own { name: "12 before 11", reading_first: true, ..RIGHT },
    Own {
        name: "the deviation not tested",
        readable: |shown| shown.reading.is_finite() && shown.aim.is_finite(),
        ..RIGHT
    },
    Own { name: "the reading alone tested", readable: |shown| shown.reading.is_finite(), ..RIGHT },
    Own { name: "undefined readings alone refused", readable: |shown| !shown.deviation.is_nan(), ..RIGHT },
    Own { name: "small deviations refused", readable: |shown| is_zero_or_normal(shown.deviation), ..RIGHT },
];

fn is_zero_or_normal(float: f64) -> bool {
    float == 0.0 || float.is_normal()
}

/// Gauges with one fault each in the band that they find. The first `UNSTEADY_PLACES` show beside themselves.
const WRONG_PLACES: [Own; 18] = [
    Own {
        name: "upper end included",
        holds: |band, shown| from(band, shown.deviation) && up_to(band, shown.deviation),
        ..RIGHT
    },
    Own {
        name: "both ends included, the last band that fits",
        holds: |band, shown| from(band, shown.deviation) && up_to(band, shown.deviation),
        pick: |_, holding, _| holding.last().copied(),
        ..RIGHT
    },
    Own {
        name: "the reading held against aim and end",
        holds: |band, shown| {
            (band.lower.0 == OPEN || shown.aim + band.lower.1 <= shown.reading)
                && (band.upper.0 == OPEN || shown.reading < shown.aim + band.upper.1)
        },
        ..RIGHT
    },
    Own {
        name: "the reading less the end held against the aim",
        holds: |band, shown| {
            (band.lower.0 == OPEN || shown.aim <= shown.reading - band.lower.1)
                && (band.upper.0 == OPEN || shown.reading - band.upper.1 < shown.aim)
        },
        ..RIGHT
    },
    Own { name: "the last band that begins", pick: |bands, _, shown| last_begun(bands, shown), ..RIGHT },
    Own {
        name: "a gap rounded up",
        pick: |bands, holding, shown| {
            let next = || bands.iter().position(|band| under(band, shown.deviation));
            holding.first().copied().or_else(next)
        },
        ..RIGHT
    },
    Own {
        name: "a gap rounded down",
        pick: |bands, holding, shown| holding.first().copied().or_else(|| last_begun(bands, shown)),
        ..RIGHT
    },
    Own {
        name: "outer bands without ends",
        pick: |bands, holding, shown| {
            let (first, last) = (bands[0], bands[bands.len() - 1]);
            let below = (!from(&first, shown.deviation)).then_some(0);
            let above = (!under(&last, shown.deviation)).then_some(bands.len() - 1);
            holding.first().copied().or(below).or(above)
        },
        ..RIGHT
    },
    Own {
        name: "the last band not looked at",
        pick: |bands, holding, _| holding.first().copied().filter(|at| at + 1 < bands.len().max(2)),
        ..RIGHT
    },
    Own { name: "the first band for a band", pick: |_, holding, _| holding.first().map(|_| 0), ..RIGHT },
    Own { name: "the reading for the deviation", holds: |band, shown| holds(band, shown.reading), ..RIGHT },
    Own {
        name: "lower end excluded",
        holds: |band, shown| (band.lower.0 == OPEN || band.lower.1 < shown.deviation) && under(band, shown.deviation),
        ..RIGHT
    },
    Own { name: "the aim less the reading", holds: |band, shown| holds(band, -shown.deviation), ..RIGHT },
    Own { name: "the size of the deviation", holds: |band, shown| holds(band, shown.deviation.abs()), ..RIGHT },
    Own {
        name: "a zero below the other",
        holds: |band, shown| {
            (band.lower.0 == OPEN || band.lower.1.total_cmp(&shown.deviation).is_le())
                && (band.upper.0 == OPEN || shown.deviation.total_cmp(&band.upper.1).is_lt())
        },
        ..RIGHT
    },
    Own { name: "single floats", holds: |band, shown| holds(band, f64::from(shown.deviation as f32)), ..RIGHT },
    Own { name: "small deviations flushed to 0", holds: |band, shown| holds(band, flushed(shown.deviation)), ..RIGHT },
    Own { name: "a tolerance at the ends", holds: |band, shown| holds(band, shown.deviation + 1e-9), ..RIGHT },
];

const UNSTEADY_PLACES: usize = 11;

fn holds(band: &Band, deviation: f64) -> bool {
    from(band, deviation) && under(band, deviation)
}

fn last_begun(bands: &[Band], shown: &Shown) -> Option<usize> {
    bands.iter().rposition(|band| from(band, shown.deviation))
}

fn flushed(float: f64) -> f64 {
    match float.is_subnormal() {
        true => 0.0,
        false => float,
    }
}

/// Gauges that answer otherwise than they find.
const WRONG_ANSWERS: [Own; 5] = [
    Own {
        name: "S for no state",
        answer: |place, states| Place { state: [states, place.state][place.found as usize], ..place },
        ..RIGHT
    },
    Own {
        name: "state 0 for no band",
        answer: |place, _| Place { found: u32::from(place.number == 0), ..place },
        ..RIGHT
    },
    Own {
        name: "a gap refused with 12",
        answer: |place, _| Place { number: [12, 0][place.found as usize].max(place.number), ..place },
        ..RIGHT
    },
    Own {
        name: "found when refused",
        answer: |place, _| Place { found: place.found | u32::from(place.number == 12), ..place },
        ..RIGHT
    },
    Own { name: "7 for found", answer: |place, _| Place { found: 7 * place.found, ..place }, ..RIGHT },
];

impl Own {
    fn is_in_order(&self, lists: Lists, bands: &[Band], states: u32) -> bool {
        let sound = |band: &Band| {
            (self.is_end)(band.lower)
                && (self.is_end)(band.upper)
                && (self.has_room)(band)
                && (self.is_state)(band.state, states)
        };
        let count = lists.states.len();
        (self.many)(count)
            && (self.fit)(lists.kinds.len(), lists.ends.len(), count)
            && bands.iter().all(sound)
            && bands.windows(2).all(|pair| (self.follows)(&pair[0], &pair[1]))
    }

    fn place(&self, lists: Lists, states: u32, shown: &Shown) -> Place {
        let bands = bands_of(lists);
        let checks = [(11, self.is_in_order(lists, &bands, states)), (12, (self.readable)(shown))];
        let mut faults = checks.into_iter().filter(|(_, right)| !right).map(|(number, _)| number);
        let fault = if self.reading_first { faults.next_back() } else { faults.next() };
        if let Some(number) = fault {
            return Place::refused(number);
        }
        let holding = (0..bands.len()).filter(|&at| (self.holds)(&bands[at], shown)).collect();
        match (self.pick)(&bands, holding, shown) {
            Some(at) => Place { number: 0, found: 1, state: bands[at].state },
            None => Place::default(),
        }
    }
}

/// The bands of three lists, as many as all of them have.
fn bands_of(lists: Lists) -> Vec<Band> {
    let (kinds, ends) = (lists.kinds.chunks_exact(2), lists.ends.chunks_exact(2));
    let band = |((kinds, ends), state): ((&[u8], &[f64]), &u32)| Band {
        lower: (kinds[0], ends[0]),
        upper: (kinds[1], ends[1]),
        state: *state,
    };
    kinds.zip(ends).zip(lists.states).map(band).collect()
}

impl Gauges for Own {
    fn name(&self) -> &'static str {
        self.name
    }

    fn gauge(&self, lists: Lists, states: u32, reading: f64, aim: f64) -> Place {
        let shown = Shown { reading, aim, deviation: reading - aim };
        (self.answer)(self.place(lists, states, &shown), states)
    }
}

/// All random rounds, for some calls of each kind.
fn compare(gauge: &dyn Gauges, second: &dyn Gauges) {
    let mut comparison = GaugeComparison::new(gauge, second);
    for (_, round) in RANDOM_ROUNDS {
        run(&mut comparison, round, 1, 3_000);
    }
}

/// Each wrong gauge is found beside the exact one by random calls alone.
#[test]
fn wrong_gauges_are_found() {
    // No difference: what is found of the others is their faults alone.
    compare(&RIGHT, &Exact);
    let wrong = || WRONG_TABLES.iter().chain(&WRONG_READINGS).chain(&WRONG_PLACES).chain(&WRONG_ANSWERS);
    differences(wrong().map(|gauge| (gauge.name, move || compare(gauge, &Exact))), "gauge, states ");
    // A band shows by what it says alone, and a deviation by itself; numbers beside open ends may be others.
    let numbers = WRONG_TABLES.iter().filter(|gauge| gauge.name.starts_with("numbers beside"));
    let unsteady = numbers.chain(&WRONG_PLACES[..UNSTEADY_PLACES]);
    differences(unsteady.map(|gauge| (gauge.name, move || compare(gauge, gauge))), " second: gauge, states ");
    println!("{} wrong gauges", wrong().count());
}
