//! The sine polynomial P with nine terms, exact, as a fraction of whole numbers.
//! Document 01, "The sine". It makes the table and the polynomial longitude.

use crate::exact::{reduce, QUADRANT, SCALE};
use crate::natural::Natural;

/// 10^16 times the fixed value of pi.
const PI: u64 = 31_415_926_535_897_932;
/// Below the line of x: 6,480,000,000 units of a half turn times 10^16.
const HALF_TURN_SCALED: u128 = 6_480_000_000 * 10_000_000_000_000_000;
/// The number of terms, x to x^17 / 17!.
const TERMS: u64 = 9;

/// A fraction above the polynomial's common denominator, with its sign.
pub struct Numerator {
    pub negative: bool,
    pub magnitude: Natural,
}

/// P over the common denominator d^17 * 17!, where x = n / d.
pub struct Polynomial {
    /// d^(16 - 2k) * 17! / (2k + 1)! for the term of x^(2k + 1).
    weights: Vec<Natural>,
    denominator: Natural,
}

impl Default for Polynomial {
    fn default() -> Self {
        Self::new()
    }
}

impl Polynomial {
    /// The weights of the nine terms and the common denominator.
    pub fn new() -> Self {
        let divisor = Natural::from_u128(HALF_TURN_SCALED);
        let square = divisor.multiply(&divisor);
        let mut weights = vec![Natural::from_u64(1)];
        for k in (1..TERMS).rev() {
            let step = Natural::from_u64(2 * k * (2 * k + 1));
            weights.push(weights[weights.len() - 1].multiply(&square).multiply(&step));
        }
        weights.reverse();
        let denominator = weights[0].multiply(&divisor);
        Polynomial { weights, denominator }
    }

    /// The common denominator of all values of P.
    pub fn denominator(&self) -> &Natural {
        &self.denominator
    }

    /// P(angle) times the denominator for any angle, reduced first and extended as Sin is.
    pub fn numerator(&self, angle: i64) -> Numerator {
        let angle = reduce(angle);
        let half = angle % (2 * QUADRANT);
        Numerator {
            negative: angle >= 2 * QUADRANT,
            magnitude: self.in_quadrant(half.min(2 * QUADRANT - half)),
        }
    }

    /// P(angle) times the denominator for an angle of 0 .. Q, by Horner's rule in n squared.
    fn in_quadrant(&self, angle: i64) -> Natural {
        let n = Natural::from_u64(angle as u64).multiply(&Natural::from_u64(PI));
        let square = n.multiply(&n);
        let mut value = Natural::zero();
        for weight in self.weights.iter().rev() {
            value = weight.subtract(&square.multiply(&value));
        }
        value.multiply(&n)
    }

    /// Nearest whole number to R * P(angle) for an angle of 0 .. Q: an entry of the table.
    pub fn nearest_scaled(&self, angle: i64) -> i64 {
        let scaled = self.in_quadrant(angle).multiply(&Natural::from_u64(SCALE as u64));
        self.nearest(&Numerator { negative: false, magnitude: scaled })
    }

    /// Nearest whole number to a fraction over the common denominator.
    pub fn nearest(&self, numerator: &Numerator) -> i64 {
        let two = Natural::from_u64(2);
        let doubled = numerator.magnitude.multiply(&two);
        let below = self.denominator.multiply(&two);
        if !numerator.negative {
            return doubled.add(&self.denominator).floor_quotient(&below);
        }
        // floor(1/2 - x) is the negative of ceiling(x - 1/2), and
        // ceiling((a - d) / 2d) = floor((a + d - 1) / 2d) for whole a and d.
        let one = Natural::from_u64(1);
        let raised = doubled.add(&self.denominator).subtract(&one);
        -raised.floor_quotient(&below)
    }
}
