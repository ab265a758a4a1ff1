//! The bound of demand 3: how far s may lie from the polynomial longitude, for each edition.
//! Document 02, requests 5 and 7.

use crate::calendar::{instant, LARGEST_DELTA_T};
use crate::edition::Edition;
use crate::exact::{floor, SCALE};
use crate::frame::NUTATION_IN_LONGITUDE;
use crate::series::absolute_sum;
use std::ops::RangeInclusive;

/// The bound of the short edition, in units, as request 5 states it.
const SHORT: i64 = 4;
/// The promise of the sine: how far Sin may lie from R * P (02, request 5).
const SINE: i64 = 30;
/// What request 7 adds, in units.
const ADDED: i64 = 2;
/// The earliest accepted instant, as fields 1 to 7 and 11.
const EARLIEST: [i64; 8] = [1976, 1, 1, 0, 0, 0, -900, 0];
/// The latest accepted instant.
const LATEST: [i64; 8] = [2049, 12, 31, 23, 59, 60_999, 900, LARGEST_DELTA_T];

/// The bounds of both editions, in units.
#[derive(Clone, Copy, Debug)]
pub struct LongitudeBounds {
    full: i64,
}

impl Default for LongitudeBounds {
    fn default() -> Self {
        Self::new()
    }
}

impl LongitudeBounds {
    /// The bounds, that of request 7 worked from its edition's amplitudes.
    pub fn new() -> Self {
        let product = SINE * largest_absolute_sum(Edition::Full);
        LongitudeBounds { full: ADDED - floor(-product, SCALE) }
    }

    /// The bound of an edition.
    pub fn of(&self, edition: Edition) -> i64 {
        match edition {
            Edition::Short => SHORT,
            Edition::Full => self.full,
        }
    }
}

/// Every q of ephemeris time that an accepted instant has.
fn accepted_millionths() -> RangeInclusive<i64> {
    let [first, last] = [EARLIEST, LATEST]
        .map(|fields| instant(&fields).expect("an accepted instant").ephemeris.millionths);
    first..=last
}

/// The amplitudes of an edition's first sum and of the nutation in longitude at q, without their
/// signs, summed.
fn amplitudes(edition: Edition, q: i64) -> i64 {
    absolute_sum(edition.first_sum(), q) + absolute_sum(&[&NUTATION_IN_LONGITUDE], q)
}

/// The largest of these sums over all accepted instants.
fn largest_absolute_sum(edition: Edition) -> i64 {
    accepted_millionths().map(|q| amplitudes(edition, q)).max().unwrap_or_default()
}

#[cfg(test)]
mod tests {
    use super::*;

    #[test]
    fn bounds_of_the_editions() {
        let bounds = LongitudeBounds::new();
        assert_eq!(bounds.of(Edition::Short), 4);
        assert_eq!(bounds.of(Edition::Full), 5);
    }

    /// The equation of the centre shrinks with time, so the sum is largest at the start.
    #[test]
    fn amplitudes_are_largest_at_the_start() {
        assert_eq!(accepted_millionths(), 759_986..=1_500_000);
        assert_eq!(largest_absolute_sum(Edition::Full), 70_447_118);
        assert_eq!(amplitudes(Edition::Full, 759_986), 70_447_118);
    }
}
