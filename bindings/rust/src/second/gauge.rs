//! From the gauge to a state, by other means than the proved library.
//!
//! - [`Exact`] takes floats apart into whole numbers of the least step that there is between two of them. It subtracts,
//!   rounds and compares these, and uses no arithmetic of floats. It holds each band against all others.
//! - [`Plain`] is what one writes by hand with the machine's floats. It is the speed baseline.

use std::cmp::Ordering;

use crate::calls::{Gauges, Lists};
use crate::sys::{Place, AT, MOST_BANDS, OPEN};
use crate::Refusal;

/// Enough for every difference of two finite floats, which is below 2^2099 steps.
const WORDS: usize = 33;

/// How many bits a float's significand has.
const SIGNIFICAND: usize = 53;

/// The most bits of a finite float as a number of steps: 2^1024 millimetres would be 2^2098 steps.
const MOST_BITS: usize = 2098;

/// A number of millimetres, exactly: a whole number of steps of 2^-1074, the least by which two floats can differ.
/// Every finite float is one, and so is every difference of two.
#[derive(Clone, Copy, Debug, PartialEq, Eq)]
pub struct Steps {
    /// Never so of 0.
    negative: bool,
    /// The number without its sign, the low word first.
    size: [u64; WORDS],
}

impl Default for Steps {
    /// 0.
    fn default() -> Steps {
        Steps::new(false, [0; WORDS])
    }
}

impl Steps {
    fn new(negative: bool, size: [u64; WORDS]) -> Steps {
        Steps { negative: negative && size != [0; WORDS], size }
    }

    /// The number that a float stands for, told from its bits; none if it is infinite or undefined.
    pub fn of(float: f64) -> Option<Steps> {
        let bits = float.to_bits();
        let (exponent, fraction) = ((bits >> 52 & 0x7ff) as usize, bits & ((1 << 52) - 1));
        let (significand, shift) = match exponent {
            0x7ff => return None,
            0 => (fraction, 0),
            _ => (fraction | 1 << 52, exponent - 1),
        };
        let shifted = u128::from(significand) << (shift % 64);
        let mut size = [0; WORDS];
        size[shift / 64] = shifted as u64;
        size[shift / 64 + 1] = (shifted >> 64) as u64;
        Some(Steps::new(bits >> 63 != 0, size))
    }

    /// This number less another, exactly.
    pub fn less(&self, other: &Steps) -> Steps {
        if self.negative != other.negative {
            return Steps::new(self.negative, sum(&self.size, &other.size));
        }
        match self.by_size(other) {
            Ordering::Less => Steps::new(!self.negative, difference(&other.size, &self.size)),
            _ => Steps::new(self.negative, difference(&self.size, &other.size)),
        }
    }

    /// The float next to it, of two that are as near the one with an even significand; none if that is infinite.
    pub fn rounded(&self) -> Option<Steps> {
        let cut = self.bits().saturating_sub(SIGNIFICAND);
        if cut == 0 {
            return Some(*self);
        }
        let (odd, half, more) = (self.bit(cut), self.bit(cut - 1), (0..cut - 1).any(|at| self.bit(at)));
        let mut size = self.size;
        size[..cut / 64].fill(0);
        size[cut / 64] &= u64::MAX << (cut % 64);
        if half && (more || odd) {
            let mut unit = [0; WORDS];
            unit[cut / 64] = 1 << (cut % 64);
            size = sum(&size, &unit);
        }
        Some(Steps { size, ..*self }).filter(|rounded| rounded.bits() <= MOST_BITS)
    }

    /// How many bits its size has, without leading zeros.
    fn bits(&self) -> usize {
        let top = self.size.iter().rposition(|&word| word != 0);
        top.map_or(0, |top| 64 * (top + 1) - self.size[top].leading_zeros() as usize)
    }

    /// A bit of its size.
    fn bit(&self, at: usize) -> bool {
        self.size[at / 64] >> (at % 64) & 1 != 0
    }

    fn by_size(&self, other: &Steps) -> Ordering {
        self.size.iter().rev().cmp(other.size.iter().rev())
    }
}

impl Ord for Steps {
    fn cmp(&self, other: &Steps) -> Ordering {
        match (self.negative, other.negative) {
            (false, false) => self.by_size(other),
            (true, true) => other.by_size(self),
            (negative, _) => other.negative.cmp(&negative),
        }
    }
}

impl PartialOrd for Steps {
    fn partial_cmp(&self, other: &Steps) -> Option<Ordering> {
        Some(self.cmp(other))
    }
}

/// The sum of two sizes, which has room.
fn sum(one: &[u64; WORDS], other: &[u64; WORDS]) -> [u64; WORDS] {
    let mut carry = 0;
    let sum = std::array::from_fn(|at| {
        let sum = u128::from(one[at]) + u128::from(other[at]) + carry;
        carry = sum >> 64;
        sum as u64
    });
    assert_eq!(carry, 0, "a difference of floats has room");
    sum
}

/// A size less another that is not above it.
fn difference(one: &[u64; WORDS], other: &[u64; WORDS]) -> [u64; WORDS] {
    let mut borrow = false;
    std::array::from_fn(|at| {
        let (less, first) = one[at].overflowing_sub(other[at]);
        let (less, second) = less.overflowing_sub(u64::from(borrow));
        borrow = first || second;
        less
    })
}

/// The reading less the aim, rounded once; none if one of the three is not finite.
pub fn deviation(reading: f64, aim: f64) -> Option<Steps> {
    Steps::of(reading)?.less(&Steps::of(aim)?).rounded()
}

/// An end of a band, in the order of all there are: an open lower end is below every number, an open upper one above.
#[derive(PartialEq, Eq, PartialOrd, Ord)]
enum Edge {
    Lowest,
    At(Box<Steps>),
    Highest,
}

/// A band.
struct Span {
    lower: Edge,
    upper: Edge,
    state: u32,
}

impl Span {
    /// Band `at` of lists that fit one another; none for a kind there is not, or an end that is not finite.
    fn read(lists: Lists, at: usize) -> Option<Span> {
        let edge = |at: usize, open| match lists.kinds[at] {
            OPEN => Some(open),
            AT => Steps::of(lists.ends[at]).map(|end| Edge::At(end.into())),
            _ => None,
        };
        let (lower, upper) = (edge(2 * at, Edge::Lowest)?, edge(2 * at + 1, Edge::Highest)?);
        Some(Span { lower, upper, state: lists.states[at] })
    }
}

/// The bands of a table in order; none if it is not.
fn spans(lists: Lists, states: u32) -> Option<Vec<Span>> {
    let count = lists.states.len();
    if count == 0 || count > MOST_BANDS || [lists.kinds.len(), lists.ends.len()] != [2 * count; 2] {
        return None;
    }
    let spans = (0..count).map(|at| Span::read(lists, at)).collect::<Option<Vec<_>>>()?;
    let sound = |span: &Span| span.lower < span.upper && span.state < states;
    let below_later = |at: usize| spans[at + 1..].iter().all(|later| spans[at].upper <= later.lower);
    (spans.iter().all(sound) && (0..count).all(below_later)).then_some(spans)
}

/// The gauge by whole numbers.
#[derive(Clone, Copy, Debug)]
pub struct Exact;

impl Exact {
    fn place(lists: Lists, states: u32, reading: f64, aim: f64) -> Result<Option<u32>, Refusal> {
        let spans = spans(lists, states).ok_or(Refusal::Bands)?;
        let deviation = Edge::At(deviation(reading, aim).ok_or(Refusal::Reading)?.into());
        let mut holding = spans.iter().filter(|span| span.lower <= deviation && deviation < span.upper);
        let state = holding.next().map(|span| span.state);
        assert!(holding.next().is_none(), "no two bands in order hold the same number");
        Ok(state)
    }
}

impl Gauges for Exact {
    fn name(&self) -> &'static str {
        "exact"
    }

    fn gauge(&self, lists: Lists, states: u32, reading: f64, aim: f64) -> Place {
        match Exact::place(lists, states, reading, aim) {
            Ok(state) => Place { number: 0, found: state.is_some().into(), state: state.unwrap_or(0) },
            Err(refusal) => Place::refused(refusal.number()),
        }
    }
}

/// The gauge by the machine's floats.
#[derive(Clone, Copy, Debug)]
pub struct Plain;

impl Plain {
    /// The bands' kinds and ends, two by two, and states.
    fn bands<'a>(lists: Lists<'a>) -> impl Iterator<Item = ([u8; 2], [f64; 2], u32)> + 'a {
        let (kinds, ends) = (lists.kinds.chunks_exact(2), lists.ends.chunks_exact(2));
        let band = |((kinds, ends), state): ((&[u8], &[f64]), &u32)| ([kinds[0], kinds[1]], [ends[0], ends[1]], *state);
        kinds.zip(ends).zip(lists.states).map(band)
    }

    /// Whether a table is in order.
    fn in_order(lists: Lists, states: u32) -> bool {
        let count = lists.states.len();
        if count == 0 || count > MOST_BANDS || lists.kinds.len() != 2 * count || lists.ends.len() != 2 * count {
            return false;
        }
        // The upper end of the band before; none if it is open.
        let mut before = Some(f64::NEG_INFINITY);
        for (at, ([lower_kind, upper_kind], [lower, upper], state)) in Plain::bands(lists).enumerate() {
            let begins = match lower_kind {
                OPEN => at == 0,
                AT => lower.is_finite() && before.is_some_and(|before| before <= lower),
                _ => false,
            };
            let ends = match upper_kind {
                OPEN => true,
                AT => upper.is_finite() && (lower_kind == OPEN || lower < upper),
                _ => false,
            };
            if !begins || !ends || state >= states {
                return false;
            }
            before = (upper_kind == AT).then_some(upper);
        }
        true
    }
}

impl Gauges for Plain {
    fn name(&self) -> &'static str {
        "plain"
    }

    fn gauge(&self, lists: Lists, states: u32, reading: f64, aim: f64) -> Place {
        if !Plain::in_order(lists, states) {
            return Place::refused(11);
        }
        let deviation = reading - aim;
        if !(reading.is_finite() && aim.is_finite() && deviation.is_finite()) {
            return Place::refused(12);
        }
        let holds = |(kinds, ends, _): &([u8; 2], [f64; 2], u32)| {
            (kinds[0] == OPEN || ends[0] <= deviation) && (kinds[1] == OPEN || deviation < ends[1])
        };
        match Plain::bands(lists).find(holds) {
            Some((_, _, state)) => Place { number: 0, found: 1, state },
            None => Place::default(),
        }
    }
}
