//! How far the table sine is from the polynomial, and its squares from the circle, over every angle
//! of some steps: figures that docs/CONTRACTS.md sets beside the promises.

use crate::exact::{QUADRANT, SCALE};
use crate::natural::Natural;
use crate::polynomial::{Numerator, Polynomial};
use crate::sine::{Sine, STEP};
use std::f64::consts::PI;
use std::ops::Range;

/// A number and the angle at which it was found, the first of several.
#[derive(Clone, Copy, Debug, Default, PartialEq)]
pub struct Found<T> {
    pub value: T,
    pub angle: i64,
}

/// The extremes over some steps of the first quadrant.
#[derive(Debug, Default)]
pub struct Extremes {
    /// |Sin - R * P| where it is largest, in thousandths.
    pub farthest: Found<i64>,
    /// Sin^2 + Cos^2 - R^2 where it is smallest and where it is largest.
    pub least: Found<i64>,
    pub most: Found<i64>,
}

/// Goes through every angle of these steps. The angle that is farthest is found by a sine of the
/// machine, which is off by less than a ten-thousandth; what it comes to there is exact.
pub fn extremes(sine: &Sine, polynomial: &Polynomial, steps: Range<i64>) -> Extremes {
    let mut found = Extremes::default();
    let mut farthest = Found::default();
    for angle in steps.start * STEP as i64..steps.end * STEP as i64 {
        let (s, c) = (sine.sin(angle), sine.sin(QUADRANT - angle));
        let value = s * s + c * c - SCALE * SCALE;
        if value < found.least.value {
            found.least = Found { value, angle };
        }
        if value > found.most.value {
            found.most = Found { value, angle };
        }
        let value =
            (s as f64 - SCALE as f64 * (angle as f64 * (PI / (2 * QUADRANT) as f64)).sin()).abs();
        if value > farthest.value {
            farthest = Found { value, angle };
        }
    }
    let angle = farthest.angle;
    let thousandths = Natural::from_u64(1_000 * SCALE as u64);
    let scaled = polynomial.numerator(angle).magnitude.multiply(&thousandths);
    let exact = polynomial.nearest(&Numerator { negative: false, magnitude: scaled });
    found.farthest = Found { value: (1_000 * sine.sin(angle) - exact).abs(), angle };
    found
}

#[cfg(test)]
#[cfg(not(feature = "five_minutes"))]
mod tests {
    use super::*;

    /// The steps in which the extremes of the whole quadrant lie.
    #[test]
    fn farthest_steps() {
        let (sine, polynomial) = (Sine::new(), Polynomial::new());
        let at = |angle: i64| {
            let step = angle / STEP as i64;
            extremes(&sine, &polynomial, step..step + 1)
        };
        let expected = Found { value: 11_556, angle: 3_141_300_884 };
        assert_eq!(at(expected.angle).farthest, expected);
        let expected = Found { value: -23_724_561_720, angle: 1_180_502_845 };
        assert_eq!(at(expected.angle).least, expected);
        assert_eq!(at(1_383_599_975).most.angle, 1_383_599_975);
    }
}
