//! Tables, readings and aims for gauges: random ones, and all of some kinds.

use super::{GaugeComparison, Sheet};
use crate::plants::Random;
use crate::sys::{AT, MOST_BANDS, OPEN};

/// A kind of random comparisons.
pub type Round = fn(&mut GaugeComparison, &mut Random);

/// The random rounds, with their names.
pub const RANDOM_ROUNDS: [(&str, Round); 4] = [
    ("readings", readings),
    ("tables with faults", tables_with_faults),
    ("tables of any floats", tables_of_any_floats),
    ("lists of any length", lists_of_any_length),
];

/// The rounds that leave nothing to chance.
pub const EXHAUSTIVE_ROUNDS: [fn(&mut GaugeComparison); 8] = [
    every_end,
    every_special_float,
    every_difference,
    every_kind,
    every_count,
    every_state,
    every_pair_of_bands,
    every_combination_of_refusals,
];

/// Floats at the edges: zeros, the least and the largest of each sort, and around them, half a step of the largest,
/// and what is not finite, signalling and negative ones among the undefined.
pub fn special_floats() -> Vec<f64> {
    let least = f64::from_bits(1);
    let half_a_step = 2f64.powi(970); // the largest and this lie between two floats, the upper one infinite
    let sizes = [
        0.0,
        least,
        2.0 * least,
        beside(f64::MIN_POSITIVE, -1),
        f64::MIN_POSITIVE,
        beside(f64::MIN_POSITIVE, 1),
        0.1,
        beside(1.0, -1),
        1.0,
        beside(1.0, 1),
        2f64.powi(53),
        beside(half_a_step, -1),
        half_a_step,
        beside(f64::MAX, -1),
        f64::MAX,
        f64::INFINITY,
        f64::NAN,
        f64::from_bits(0x7ff0_0000_0000_0001),
    ];
    sizes.into_iter().flat_map(|size| [size, -size]).collect()
}

/// The place of a float that is not undefined in the order of all, both zeros at 0.
fn rank(float: f64) -> i64 {
    let size = (float.to_bits() & (u64::MAX >> 1)) as i64;
    if float.to_bits() >> 63 != 0 {
        -size
    } else {
        size
    }
}

/// The float so many places above one that is not undefined, or the last there is.
pub fn beside(float: f64, places: i64) -> f64 {
    let last = rank(f64::INFINITY);
    let rank = rank(float).saturating_add(places).clamp(-last, last);
    f64::from_bits(rank.unsigned_abs() | u64::from(rank < 0) << 63)
}

/// A float that is finite: of any bits, a number of hundredths, a whole number of the least steps, or one at the edges.
fn any_finite(random: &mut Random) -> f64 {
    let float = match random.below(8) {
        0 | 1 => f64::from_bits(random.bits()),
        2 => f64::from_bits(random.bits() >> random.below(64)),
        3 => special_floats()[random.below(special_floats().len())],
        4 => (random.from_to(0, 8) as f64 - 4.0) * 2f64.powi(random.from_to(0, 40) as i32 - 20),
        _ => (random.from_to(0, 800) as f64 - 400.0) / 100.0,
    };
    if float.is_finite() {
        float
    } else {
        any_finite(random)
    }
}

/// Any float, now and then one that is not finite.
fn any_float(random: &mut Random) -> f64 {
    match random.once_in(6) {
        true => special_floats()[random.below(special_floats().len())],
        false => any_finite(random),
    }
}

/// So many floats that rise, no two the same: all over the range, or a few places apart from some float on.
fn ladder(count: usize, random: &mut Random) -> Vec<f64> {
    let mut ends: Vec<f64> = Vec::new();
    let close = random.once_in(3);
    let first = any_finite(random).clamp(-f64::MAX, beside(f64::MAX, -3 * count as i64));
    while ends.len() < count {
        let next = match (close, ends.last()) {
            (true, Some(&last)) => beside(last, random.from_to(1, 3) as i64),
            (true, None) => first,
            (false, _) => any_finite(random),
        };
        if !ends.contains(&next) {
            ends.push(next);
        }
    }
    ends.sort_by(f64::total_cmp);
    ends
}

/// How many bands a table has: mostly a few, sometimes as many as there may be.
fn any_count(random: &mut Random) -> usize {
    match random.below(12) {
        0 => random.from_to(1, MOST_BANDS),
        1 => MOST_BANDS - random.below(2),
        _ => random.from_to(1, 5),
    }
}

/// The float, or the other zero now and then.
fn or_other_zero(float: f64, random: &mut Random) -> f64 {
    match float == 0.0 && random.once_in(2) {
        true => -float,
        false => float,
    }
}

/// A table in order, and S.
fn any_sheet(random: &mut Random) -> (Sheet, u32) {
    sheet_of(any_count(random), random)
}

/// So many bands in order, which touch or leave gaps and whose outer ends may be open, and S.
pub fn sheet_of(count: usize, random: &mut Random) -> (Sheet, u32) {
    let mut left = ladder(2 * count, random).into_iter();
    let touching = random.from_to(1, 3);
    let mut ends: Vec<f64> = Vec::new();
    while ends.len() < 2 * count {
        match ends.last() {
            Some(&last) if ends.len() % 2 == 0 && !random.once_in(touching) => ends.push(or_other_zero(last, random)),
            _ => ends.push(left.next().expect("an end for each")),
        }
    }
    let mut kinds = vec![AT; 2 * count];
    for at in [0, 2 * count - 1] {
        if random.once_in(3) {
            kinds[at] = OPEN;
            ends[at] = any_float(random);
        }
    }
    let states = [1, 4, 1024, u32::MAX, random.bits() as u32 | 1][random.below(5)];
    let state = |random: &mut Random| match random.once_in(4) {
        true => states - 1,
        false => (random.bits() % u64::from(states)) as u32,
    };
    let states_of_bands = (0..count).map(|_| state(random)).collect();
    (Sheet { kinds, ends, states: states_of_bands }, states)
}

/// A reading and an aim: near an end of the table, from an aim of 0 or another, or any.
fn any_reading(sheet: &Sheet, random: &mut Random) -> [f64; 2] {
    let near = match sheet.ends.get(random.below(sheet.ends.len().max(1))) {
        Some(end) if end.is_finite() => beside(*end, random.from_to(0, 4) as i64 - 2),
        _ => any_finite(random),
    };
    let zeros = [(); 2].map(|()| or_other_zero(0.0, random));
    match random.below(12) {
        0 => [any_float(random), any_float(random)],
        1 => [any_finite(random), any_finite(random)],
        2 | 3 => [near, zeros[0]],
        4 => [zeros[0], -near],
        5 => [near, any_finite(random)],
        6 => zeros,
        7 => UNREADABLE[random.below(UNREADABLE.len())],
        _ => {
            let aim = any_finite(random);
            [beside(near + aim, random.from_to(0, 2) as i64 - 1), aim]
        }
    }
}

/// A table in order, and some readings.
fn readings(comparison: &mut GaugeComparison, random: &mut Random) {
    let (sheet, states) = any_sheet(random);
    for _ in 0..8 {
        let [reading, aim] = any_reading(&sheet, random);
        let number = comparison.place(&sheet, states, reading, aim).number;
        let readable = reading.is_finite() && aim.is_finite() && (reading - aim).is_finite();
        assert_eq!(number, if readable { 0 } else { 12 }, "a table in order");
    }
}

/// A table with one fault put in or more, mostly, and some readings.
fn tables_with_faults(comparison: &mut GaugeComparison, random: &mut Random) {
    let (right, states) = any_sheet(random);
    for _ in 0..4 {
        let (mut sheet, mut states) = (right.clone(), states);
        for _ in 0..random.from_to(1, 2) {
            let (fault, place) = (random.below(FAULTS.len()), random.below(2 * MOST_BANDS));
            FAULTS[fault].1(&mut sheet, &mut states, place);
        }
        for _ in 0..2 {
            let [reading, aim] = any_reading(&right, random);
            comparison.place(&sheet, states, reading, aim);
        }
    }
}

/// A few bands with ends and states of any sort, and some readings.
fn tables_of_any_floats(comparison: &mut GaugeComparison, random: &mut Random) {
    let count = random.from_to(1, 3);
    let pool = [(); 4].map(|()| any_float(random));
    let sheet = Sheet {
        kinds: (0..2 * count).map(|_| [OPEN, AT, AT, AT, AT, AT, AT, 2][random.below(8)]).collect(),
        ends: (0..2 * count).map(|_| pool[random.below(4)]).collect(),
        states: (0..count).map(|_| random.below(5) as u32).collect(),
    };
    for _ in 0..4 {
        let [reading, aim] = any_reading(&sheet, random);
        comparison.place(&sheet, random.from_to(3, 6) as u32, reading, aim);
    }
}

/// As many bands in order as there may be, or about so many, and lists of lengths that mostly do not fit.
fn lists_of_any_length(comparison: &mut GaugeComparison, random: &mut Random) {
    let (most, states) = sheet_of(random.from_to(MOST_BANDS - 2, MOST_BANDS + 3), random);
    let [reading, aim] = any_reading(&most, random);
    comparison.place(&most, states, reading, aim);
    let (right, states) = any_sheet(random);
    for _ in 0..4 {
        let mut sheet = right.clone();
        let [kinds, ends, count] = [&sheet.kinds.len(), &sheet.ends.len(), &sheet.states.len()]
            .map(|length| (length + random.below(4)).saturating_sub(random.below(4)));
        sheet.kinds.resize(kinds, AT);
        sheet.ends.resize(ends, f64::MAX);
        sheet.states.resize(count, 0);
        let [reading, aim] = any_reading(&right, random);
        comparison.place(&sheet, states, reading, aim);
    }
}

/// So many bands of a millimetre each from 0 on, touching, or with gaps of a millimetre; states from 0 on.
fn rising(count: usize, touching: bool) -> Sheet {
    let ends = (0..2 * count).map(|at| if touching { at.div_ceil(2) } else { at } as f64).collect();
    Sheet { kinds: vec![AT; 2 * count], ends, states: (0..count as u32).collect() }
}

/// What puts a fault in that is refused with 11, at a place or near it.
type Spoil = fn(&mut Sheet, &mut u32, usize);

/// The faults of a table, with their names.
const FAULTS: [(&str, Spoil); 21] = [
    ("a kind less", |sheet, _, _| shorten(&mut sheet.kinds)),
    ("a kind more", |sheet, _, _| sheet.kinds.push(AT)),
    ("an end less", |sheet, _, _| shorten(&mut sheet.ends)),
    ("an end more", |sheet, _, _| sheet.ends.push(f64::MAX)),
    ("a state less", |sheet, _, _| shorten(&mut sheet.states)),
    ("a state more", |sheet, _, _| sheet.states.push(0)),
    ("no bands", |sheet, _, _| (sheet.kinds, sheet.ends, sheet.states) = (vec![], vec![], vec![])),
    ("too many bands", |sheet, _, _| {
        sheet.kinds.resize(2 * MOST_BANDS + 2, AT);
        sheet.ends.resize(2 * MOST_BANDS + 2, f64::MAX);
        sheet.states.resize(MOST_BANDS + 1, 0);
    }),
    ("a kind there is not", |sheet, _, at| put(&mut sheet.kinds, at, [2, 3, 128, 255][at % 4])),
    ("an undefined end", |sheet, _, at| put_end(sheet, at, f64::NAN)),
    ("an undefined end below 0", |sheet, _, at| put_end(sheet, at, -f64::NAN)),
    ("an infinite end", |sheet, _, at| put_end(sheet, at, f64::INFINITY)),
    ("an infinite end below 0", |sheet, _, at| put_end(sheet, at, f64::NEG_INFINITY)),
    ("an empty band", |sheet, _, at| with_band(sheet, at, |ends| ends[1] = ends[0])),
    ("a band between both zeros", |sheet, _, at| with_band(sheet, at, |ends| ends.copy_from_slice(&[-0.0, 0.0]))),
    ("a band turned about", |sheet, _, at| with_band(sheet, at, |ends| ends.swap(0, 1))),
    ("a band twice", |sheet, _, at| {
        let bands = sheet.states.len().min(sheet.kinds.len() / 2).min(sheet.ends.len() / 2);
        if let Some(at) = at.checked_rem(bands) {
            let Sheet { kinds, ends, states } = sheet.alone(at);
            sheet.kinds.splice(2 * at..2 * at, kinds);
            sheet.ends.splice(2 * at..2 * at, ends);
            sheet.states.splice(at..at, states);
        }
    }),
    ("an overlap by one float", |sheet, _, at| {
        if let Some(band) = at.checked_rem(sheet.states.len().saturating_sub(1)) {
            put_end(sheet, 2 * band + 2, beside(sheet.ends.get(2 * band + 1).copied().unwrap_or(0.0), -1));
        }
    }),
    ("an open end inside", |sheet, _, at| {
        let inside = sheet.kinds.len().saturating_sub(2);
        put(&mut sheet.kinds, at.checked_rem(inside).map_or(usize::MAX, |at| at + 1), OPEN);
    }),
    ("a state that is S", |sheet, states, at| {
        let count = sheet.states.len().max(1);
        put(&mut sheet.states, at % count, *states);
    }),
    ("no states", |_, states, _| *states = 0),
];

/// Takes the last one off.
fn shorten<T>(list: &mut Vec<T>) {
    list.truncate(list.len().saturating_sub(1));
}

/// Puts a value at a place, counted round, if there is one.
fn put<T>(list: &mut [T], at: usize, value: T) {
    if let Some(at) = at.checked_rem(list.len()) {
        list[at] = value;
    }
}

/// Puts an end that is a number at a place, counted round.
fn put_end(sheet: &mut Sheet, at: usize, end: f64) {
    if let Some(at) = at.checked_rem(sheet.ends.len().min(sheet.kinds.len())) {
        sheet.kinds[at] = AT;
        sheet.ends[at] = end;
    }
}

/// Changes the ends of a band, counted round, if both are numbers.
fn with_band(sheet: &mut Sheet, at: usize, change: fn(&mut [f64])) {
    if let Some(band) = at.checked_rem(sheet.ends.len().min(sheet.kinds.len()) / 2) {
        if sheet.kinds[2 * band..2 * band + 2] == [AT; 2] {
            change(&mut sheet.ends[2 * band..2 * band + 2]);
        }
    }
}

/// Readings and aims that are refused with 12.
const UNREADABLE: [[f64; 2]; 9] = [
    [f64::NAN, 0.5],
    [f64::INFINITY, 0.5],
    [f64::NEG_INFINITY, 0.5],
    [0.5, f64::NAN],
    [0.5, f64::INFINITY],
    [0.5, f64::NEG_INFINITY],
    [f64::INFINITY, f64::INFINITY],
    [f64::MAX, -f64::MAX],
    [-f64::MAX, f64::MAX],
];

/// Each fault of a table at each place, and none, with each of a reading, and none: 11 comes first, then 12. And all
/// pairs of faults of a table.
fn every_combination_of_refusals(comparison: &mut GaugeComparison) {
    for (touching, place) in [true, false].into_iter().flat_map(|touching| (0..6).map(move |place| (touching, place))) {
        let right = rising(3, touching);
        for fault in [None].into_iter().chain(FAULTS.map(Some)) {
            let (mut sheet, mut states) = (right.clone(), 3);
            if let Some((_, spoil)) = fault {
                spoil(&mut sheet, &mut states, place);
            }
            let told = |or| if fault.is_some() { 11 } else { or };
            let name = fault.map_or("no fault", |(name, _)| name);
            assert_eq!(comparison.place(&sheet, states, 2.5, 0.0).number, told(0), "{name} at {place}");
            for [reading, aim] in UNREADABLE {
                assert_eq!(comparison.place(&sheet, states, reading, aim).number, told(12), "{name} at {place}");
            }
            for (_, spoil) in FAULTS {
                let (mut sheet, mut states) = (sheet.clone(), states);
                spoil(&mut sheet, &mut states, place + 1);
                comparison.place(&sheet, states, 2.5, 0.0);
                comparison.place(&sheet, states, f64::NAN, 0.0);
            }
        }
    }
}

/// Bands that touch or leave gaps, of floats that are whole, next to one another, the least and the largest there are:
/// each end is in the band that it begins and not in the one that it ends, by several readings and aims.
fn every_end(comparison: &mut GaugeComparison) {
    let ladders = [(1.0, 0), (-2.0, 0), (0.1, 1), (-0.1, 2), (0.0, 1), (-0.0, 3), (f64::from_bits(1) * -3.0, 1)];
    let outer = [(beside(f64::MAX, -9), 1), (-f64::MAX, 1), (beside(f64::MIN_POSITIVE, -2), 1), (beside(1.0, -3), 1)];
    for (first, step) in ladders.into_iter().chain(outer) {
        for touching in [true, false] {
            let mut sheet = rising(3, touching);
            for end in &mut sheet.ends {
                *end = if step == 0 { first + *end } else { beside(first, step * *end as i64) };
            }
            for kinds in [[AT, AT], [OPEN, AT], [AT, OPEN], [OPEN, OPEN]] {
                (sheet.kinds[0], sheet.kinds[5]) = (kinds[0], kinds[1]);
                each_end_of(comparison, &sheet);
            }
        }
    }
}

/// The ends of a table of three bands with states 0 to 2, whose inner ends are numbers, and the floats next to them.
fn each_end_of(comparison: &mut GaugeComparison, sheet: &Sheet) {
    for (at, &end) in sheet.ends.iter().enumerate() {
        for places in -2..=2 {
            let near = beside(end, places);
            for [reading, aim] in [[near, 0.0], [near, -0.0], [0.0, -near], [-0.0, -near], [near, end], [near, 1.0]] {
                comparison.place(sheet, 3, reading, aim);
            }
        }
        let begun = sheet.ends.iter().step_by(2).position(|&lower| lower == end).filter(|_| end.is_finite());
        let outside = at == 5 && sheet.kinds[5] == OPEN;
        let place = comparison.place(sheet, 3, end, 0.0);
        let expected = begun.map(|band| band as u32).or(outside.then_some(2));
        assert_eq!((place.found, place.state), (u32::from(expected.is_some()), expected.unwrap_or(0)), "at an end");
    }
}

/// Each float at the edges as each end of two bands, open or not, and as reading and aim.
fn every_special_float(comparison: &mut GaugeComparison) {
    let specials = special_floats();
    let right = Sheet { kinds: vec![AT; 4], ends: vec![-1.0, 0.0, 0.0, 1.0], states: vec![4, 5] };
    for at in 0..4 {
        for (&end, kind) in specials.iter().flat_map(|end| [(end, AT), (end, OPEN)]) {
            let mut sheet = right.clone();
            (sheet.kinds[at], sheet.ends[at]) = (kind, end);
            for &reading in &specials {
                for aim in [0.0, -0.0, 1.0, end, f64::MAX, -f64::from_bits(1), f64::NAN] {
                    comparison.place(&sheet, 6, reading, aim);
                }
            }
        }
    }
}

/// Differences of all floats at the edges and next to them, in one band without ends and in bands between all of them.
fn every_difference(comparison: &mut GaugeComparison) {
    let near = |float: f64| [-1, 0, 1].map(|places| if float.is_nan() { float } else { beside(float, places) });
    let floats: Vec<f64> = special_floats().into_iter().flat_map(near).collect();
    let mut ends: Vec<f64> = special_floats().into_iter().filter(|float| float.is_finite()).collect();
    ends.sort_by(f64::total_cmp);
    ends.dedup();
    let bands = ends.len() - 1;
    let between = Sheet {
        kinds: vec![AT; 2 * bands],
        ends: ends.windows(2).flatten().copied().collect(),
        states: (0..bands as u32).collect(),
    };
    let all = Sheet { kinds: vec![OPEN; 2], ends: vec![f64::NAN; 2], states: vec![0] };
    for (&reading, &aim) in floats.iter().flat_map(|reading| floats.iter().map(move |aim| (reading, aim))) {
        comparison.place(&between, bands as u32, reading, aim);
        comparison.place(&all, 1, reading, aim);
    }
}

/// Every kind at each place, beside a number and beside none.
fn every_kind(comparison: &mut GaugeComparison) {
    for (at, kind) in (0..6).flat_map(|at| (0..=u8::MAX).map(move |kind| (at, kind))) {
        for (touching, idle) in [(true, false), (false, false), (true, true)] {
            let mut sheet = rising(3, touching);
            sheet.kinds[at] = kind;
            if idle {
                sheet.ends[at] = f64::NAN;
            }
            for reading in [-1.0, 0.0, 2.5, 9.0, f64::NAN] {
                let number = comparison.place(&sheet, 3, reading, 0.0).number;
                assert!(number == 11 || kind < 2, "kind {kind}");
            }
        }
    }
}

/// Every number of bands up to some more than are accepted, with lists that fit, and are one less or more.
fn every_count(comparison: &mut GaugeComparison) {
    for (count, touching) in (0..=MOST_BANDS + 2).flat_map(|count| [(count, true), (count, false)]) {
        let longer = rising(count + 1, touching);
        for lengths in 0..27 {
            let [kinds, ends, states] = [lengths / 9, lengths / 3 % 3, lengths % 3];
            let mut sheet = longer.clone();
            sheet.kinds.truncate((2 * count + kinds).saturating_sub(1));
            sheet.ends.truncate((2 * count + ends).saturating_sub(1));
            sheet.states.truncate((count + states).saturating_sub(1));
            let last = sheet.ends.last().map_or(0.0, |end| end - 0.5);
            let place = comparison.place(&sheet, 99, last, 0.0);
            let right = [kinds, ends, states] == [1; 3] && (1..=MOST_BANDS).contains(&count);
            assert_eq!(place.number, if right { 0 } else { 11 }, "{count} bands, lists {lengths}");
            if right {
                assert_eq!((place.found, place.state), (1, count as u32 - 1), "the last band");
            }
            comparison.place(&sheet, 99, 0.25, f64::NAN);
        }
    }
}

/// Two bands whose states are around S, which is none, small or the largest.
fn every_state(comparison: &mut GaugeComparison) {
    for states in [0, 1, 2, 1023, 1024, u32::MAX - 1, u32::MAX] {
        let around = [0, 1, 2, states.wrapping_sub(1), states, states.wrapping_add(1), u32::MAX - 1, u32::MAX];
        for (one, other) in around.into_iter().flat_map(|one| around.map(|other| (one, other))) {
            let sheet = Sheet { states: vec![one, other], ..rising(2, false) };
            for reading in [0.5, 1.5, 2.5, f64::INFINITY] {
                let number = comparison.place(&sheet, states, reading, 0.0).number;
                assert_eq!(number == 11, one >= states || other >= states, "states {one} and {other} of {states}");
            }
        }
    }
}

/// Two bands with all ends of a few, and three with fewer: touching, overlapping, empty and turned about.
fn every_pair_of_bands(comparison: &mut GaugeComparison) {
    let least = f64::from_bits(1);
    let ends = [(OPEN, f64::NAN), (AT, -1.0), (AT, -0.0), (AT, 0.0), (AT, least), (AT, 1.0)];
    every_table(comparison, &ends, 2, &[-2.0, -1.0, -least, -0.0, 0.0, least, 0.5, 1.0, 2.0]);
    every_table(comparison, &[ends[0], ends[1], ends[3], ends[5]], 3, &[-2.0, -1.0, -0.5, 0.0, 0.5, 1.0]);
}

/// So many bands with each of these ends at each place.
fn every_table(comparison: &mut GaugeComparison, ends: &[(u8, f64)], bands: usize, readings: &[f64]) {
    for mut table in 0..ends.len().pow(2 * bands as u32) {
        let mut sheet = rising(bands, true);
        for at in 0..2 * bands {
            (sheet.kinds[at], sheet.ends[at]) = ends[table % ends.len()];
            table /= ends.len();
        }
        for &reading in readings {
            comparison.place(&sheet, bands as u32, reading, 0.0);
        }
    }
}
