//! From the gauge to a state, by hand, from request (xi) of document 02.

use planbook::calls::{Gauges, Lists};
use planbook::compare::gauges::rounds::beside;
use planbook::sys::{Place, AT, OPEN};

const NAN: f64 = f64::NAN;
const INFINITY: f64 = f64::INFINITY;

/// Asks for a deviation with a table of bands: kinds and ends, the lower ones first, and states.
fn check(gauge: &dyn Gauges, bands: (&[u8], &[f64], &[u32]), states: u32, [reading, aim]: [f64; 2], told: Place) {
    let (kinds, ends, band_states) = bands;
    let place = gauge.gauge(Lists { kinds, ends, states: band_states }, states, reading, aim);
    assert_eq!(place, told, "{}: {bands:?}, {states} states, {reading:?} less {aim:?}", gauge.name());
}

/// The deviation is in a band with this state.
fn at(state: u32) -> Place {
    Place { number: 0, found: 1, state }
}

/// The deviation is in no band.
const GAP: Place = Place { number: 0, found: 0, state: 0 };

/// The call is refused with this number.
fn refused(number: u32) -> Place {
    Place { number, found: 0, state: 0 }
}

/// All that follows.
pub fn all(gauge: &dyn Gauges) {
    places(gauge);
    roundings(gauge);
    tables_refused(gauge);
    counts_of_bands(gauge);
    readings_refused(gauge);
}

/// Where deviations lie: in a band from 0 to 1, and in three, of which the first two touch.
fn places(gauge: &dyn Gauges) {
    let unit: (&[u8], &[f64], &[u32]) = (&[AT, AT], &[0.0, 1.0], &[3]);
    for (reading, told) in [(0.5, at(3)), (0.0, at(3)), (-0.0, at(3)), (1.0, GAP), (beside(1.0, -1), at(3))] {
        check(gauge, unit, 4, [reading, 0.0], told);
    }
    check(gauge, unit, 4, [-f64::from_bits(1), 0.0], GAP);
    let three: (&[u8], &[f64], &[u32]) = (&[OPEN, AT, AT, AT, AT, OPEN], &[0.0, -1.0, -1.0, 1.0, 2.0, 0.0], &[5, 6, 7]);
    let told = [(-7.0, at(5)), (-1.0, at(6)), (0.0, at(6)), (1.0, GAP), (1.5, GAP), (2.0, at(7)), (1e300, at(7))];
    for (reading, told) in told {
        check(gauge, three, 8, [reading, 0.0], told);
        check(gauge, three, 8, [0.0, -reading], told);
    }
    check(gauge, three, 8, [beside(-1.0, -1), 0.0], at(5));
    check(gauge, (&[OPEN, OPEN], &[NAN, INFINITY], &[3]), 4, [-1e300, 0.0], at(3));
    check(gauge, (&[OPEN, AT], &[NAN, 1.0], &[3]), 4, [0.5, 0.0], at(3));
    check(gauge, (&[AT, OPEN], &[-0.0, NAN], &[0]), 1, [0.0, 0.0], at(0));
}

/// The difference is rounded once, and no sum is made of an aim and an end.
fn roundings(gauge: &dyn Gauges) {
    check(gauge, (&[AT, AT], &[0.2, 0.3], &[3]), 4, [0.3, 0.1], GAP); // 0.19999999999999998
    check(gauge, (&[AT, OPEN], &[4.0, 0.0], &[3]), 4, [4.1, 0.1], GAP); // 3.9999999999999996, though 4.0 + 0.1 is 4.1
    let wide = 2f64.powi(53);
    for (aim, told) in [(-1.0, GAP), (-beside(1.0, 1), at(1)), (-3.0, at(1)), (1.0, GAP)] {
        check(gauge, (&[AT, OPEN], &[wide + 2.0, 0.0], &[1]), 2, [wide, aim], told);
        // ties go to the even one
    }
    let least = f64::from_bits(1);
    let aim = beside(f64::MIN_POSITIVE, -1);
    check(gauge, (&[AT, AT], &[least, 2.0 * least], &[0]), 1, [f64::MIN_POSITIVE, aim], at(0));
}

/// What is refused with 11: the table.
fn tables_refused(gauge: &dyn Gauges) {
    let mut tables: Vec<(&[u8], &[f64], &[u32])> = vec![
        (&[AT, AT], &[0.0, 1.0], &[4]),
        (&[AT, AT], &[0.0, 1.0], &[u32::MAX]),
        (&[AT, AT], &[0.0, -0.0], &[3]),
        (&[AT, AT], &[1.0, 0.0], &[3]),
        (&[AT, AT], &[NAN, 1.0], &[3]),
        (&[AT, AT], &[0.0, NAN], &[3]),
        (&[AT, AT], &[-INFINITY, 1.0], &[3]),
        (&[AT, AT], &[0.0, INFINITY], &[3]),
        (&[2, AT], &[0.0, 1.0], &[3]),
        (&[AT, 255], &[0.0, 1.0], &[3]),
        (&[], &[], &[]),
        (&[AT, AT], &[0.0], &[3]),
        (&[AT], &[0.0, 1.0], &[3]),
        (&[AT, AT], &[0.0, 1.0], &[]),
        (&[AT, AT], &[0.0, 1.0], &[3, 3]),
        (&[AT, AT], &[0.0, 1.0, 2.0], &[3]),
        (&[AT, AT, AT], &[0.0, 1.0], &[3]),
    ];
    // Two bands that overlap, have an open end between them, or fall.
    let ends: [&[f64]; 2] = [&[0.0, 1.0, 0.75, 2.0], &[5.0, 6.0, 0.0, 1.0]];
    tables.extend(ends.map(|ends| (&[AT; 4][..], ends, &[3u32, 3][..])));
    tables.push((&[AT, OPEN, AT, AT], &[0.0, 1.0, 1.0, 2.0], &[3, 3]));
    tables.push((&[AT, AT, OPEN, AT], &[0.0, 1.0, 1.0, 2.0], &[3, 3]));
    for table in tables {
        for reading in [0.5, NAN] {
            check(gauge, table, 4, [reading, 0.0], refused(11));
        }
    }
    check(gauge, (&[OPEN, OPEN], &[0.0, 0.0], &[0]), 0, [0.5, 0.0], refused(11));
}

/// 64 bands are accepted, and 65 are not.
fn counts_of_bands(gauge: &dyn Gauges) {
    for count in [1, 2, 63, 64, 65, 66] {
        let ends: Vec<f64> = (0..count).flat_map(|band| [f64::from(band), f64::from(band) + 1.0]).collect();
        let (kinds, states) = (vec![AT; ends.len()], (0..count).collect::<Vec<u32>>());
        let last = f64::from(count) - 0.5;
        let told = if count <= 64 { at(count - 1) } else { refused(11) };
        check(gauge, (&kinds, &ends, &states), count, [last, 0.0], told);
    }
}

/// What is refused with 12: the reading, the aim or the deviation.
fn readings_refused(gauge: &dyn Gauges) {
    let all: (&[u8], &[f64], &[u32]) = (&[OPEN, OPEN], &[0.0, 0.0], &[3]);
    for bad in [NAN, -NAN, INFINITY, -INFINITY] {
        for readings in [[bad, 0.0], [0.0, bad], [bad, bad]] {
            check(gauge, all, 4, readings, refused(12));
        }
    }
    let (most, half) = (f64::MAX, 2f64.powi(970));
    for readings in [[most, -most], [-most, most], [most, -half]] {
        check(gauge, all, 4, readings, refused(12));
    }
    for readings in [[most, most], [most, half], [most, -beside(half, -1)], [-most, 0.0]] {
        check(gauge, all, 4, readings, at(3));
    }
}
