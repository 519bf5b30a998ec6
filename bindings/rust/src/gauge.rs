//! From the gauge to a state: a table of bands around the aim.

use crate::calls::{Gauges, Linked, Lists};
use crate::sys::{AT, OPEN};
use crate::Refusal;

/// An end of a band.
#[derive(Clone, Copy, Debug, PartialEq)]
pub enum End {
    /// Open without limit.
    Open,
    /// At a number of millimetres off the aim.
    At(f64),
}

/// A band of deviations and the state that they stand for. The lower end is in the band, the upper one is not.
#[derive(Clone, Copy, Debug, PartialEq)]
pub struct Band {
    /// Where the band begins.
    pub lower: End,
    /// Where it ends.
    pub upper: End,
    /// The state of the plant.
    pub state: u32,
}

/// A table of bands, as it is lent to the proved library. It may be any: [`Bands::place`] checks it.
///
/// ```
/// use planbook::{Band, Bands, End, Refusal};
///
/// // Thin, on aim and thick, with five states in the plant. A hundredth either way is on aim.
/// let bands = Bands::new(&[
///     Band { lower: End::Open, upper: End::At(-0.01), state: 1 },
///     Band { lower: End::At(-0.01), upper: End::At(0.01), state: 2 },
///     Band { lower: End::At(0.01), upper: End::At(0.5), state: 3 },
/// ]);
/// assert_eq!(bands.place(5, 2.004, 2.0), Ok(Some(2)));
/// assert_eq!(bands.place(5, 1.25, 2.0), Ok(Some(1)));
/// assert_eq!(bands.place(5, 0.01, 0.0), Ok(Some(3))); // an end is in the band above it
/// assert_eq!(bands.place(5, 2.5, 2.0), Ok(None)); // in no band
/// assert_eq!(bands.place(3, 2.5, 2.0), Err(Refusal::Bands)); // with three states there is no state 3
/// assert_eq!(bands.place(5, f64::NAN, 2.0), Err(Refusal::Reading));
/// ```
#[derive(Clone, Debug, Default, PartialEq)]
pub struct Bands {
    kinds: Vec<u8>,
    ends: Vec<f64>,
    states: Vec<u32>,
}

impl Bands {
    /// The table of these bands, in the order given.
    pub fn new(bands: &[Band]) -> Bands {
        let ends = || bands.iter().flat_map(|band| [band.lower, band.upper]);
        let kind = |end| match end {
            End::Open => OPEN,
            End::At(_) => AT,
        };
        let number = |end| match end {
            End::Open => 0.0,
            End::At(number) => number,
        };
        Bands {
            kinds: ends().map(kind).collect(),
            ends: ends().map(number).collect(),
            states: bands.iter().map(|band| band.state).collect(),
        }
    }

    /// The state of the band that holds the deviation, or `None` if it lies in a gap.
    ///
    /// The deviation is `reading - aim` in millimetres, rounded once, as `f64` has it; an aim and an end that add up to
    /// the reading on paper need not do so here. `states` is S: every band's state must be below it. The table is
    /// checked in every call, and there are no refusals but [`Refusal::Bands`] and then [`Refusal::Reading`].
    ///
    /// ```
    /// use planbook::{Band, Bands, End};
    ///
    /// let bands = Bands::new(&[Band { lower: End::At(4.0), upper: End::Open, state: 0 }]);
    /// assert_eq!(bands.place(1, 4.5, 0.5), Ok(Some(0)));
    /// assert_eq!(bands.place(1, 4.1, 0.1), Ok(None)); // 4.1 - 0.1 is 3.9999999999999996
    /// ```
    pub fn place(&self, states: u32, reading: f64, aim: f64) -> Result<Option<u32>, Refusal> {
        let lists = Lists { kinds: &self.kinds, ends: &self.ends, states: &self.states };
        let place = Linked.gauge(lists, states, reading, aim);
        match (place.number, place.found) {
            (0, 0) => Ok(None),
            (0, _) => Ok(Some(place.state)),
            (number, _) => Err(Refusal::from_number(number)),
        }
    }
}
