//! The table sine. Document 01, "The sine"; document 02, request 5.

use crate::exact::{reduce, QUADRANT, TURN};
use crate::polynomial::Polynomial;

/// The table's step, a minute of arc, in units; with the feature `five_minutes` that of document
/// 01, for the vectors that are older than request 5.
pub const STEP: u64 = if cfg!(feature = "five_minutes") { 3_000_000 } else { 600_000 };
/// The number of steps from 0 to 90 degrees.
pub const STEPS: usize = (QUADRANT as u64 / STEP) as usize;

/// The table of 5,401 entries: R times the sine of each minute from 0 to 90 degrees.
pub struct Sine {
    entries: [u32; STEPS + 1],
}

impl Default for Sine {
    fn default() -> Self {
        Self::new()
    }
}

impl Sine {
    /// The table worked from the polynomial: entry n is the nearest to R * P(n steps).
    pub fn new() -> Self {
        let polynomial = Polynomial::new();
        let entry = |n: usize| polynomial.nearest_scaled(STEP as i64 * n as i64) as u32;
        Sine { entries: std::array::from_fn(entry) }
    }

    /// Entry n of the table.
    #[inline(always)]
    pub fn entry(&self, n: usize) -> u64 {
        u64::from(self.entries[n])
    }

    /// Sin(angle), scaled to R, for any angle, reduced first.
    #[inline]
    pub fn sin(&self, angle: i64) -> i64 {
        self.of_reduced(reduce(angle))
    }

    /// Cos(angle) = Sin(angle + Q), for any angle, reduced first.
    #[inline]
    pub fn cos(&self, angle: i64) -> i64 {
        let shifted = reduce(angle) + QUADRANT;
        self.of_reduced(if shifted < TURN { shifted } else { shifted - TURN })
    }

    /// Sin for a reduced angle, by quadrants.
    #[inline(always)]
    fn of_reduced(&self, angle: i64) -> i64 {
        let half = if angle < 2 * QUADRANT { angle } else { angle - 2 * QUADRANT };
        let acute = if half <= QUADRANT { half } else { 2 * QUADRANT - half };
        let value = self.in_quadrant(acute as u64);
        if angle < 2 * QUADRANT {
            value
        } else {
            -value
        }
    }

    /// Sin for an angle of 0 .. Q.
    #[inline(always)]
    fn in_quadrant(&self, angle: u64) -> i64 {
        let n = (angle / STEP) as usize;
        if n >= STEPS {
            return self.entry(STEPS) as i64;
        }
        interpolate(self.entry(n), self.entry(n + 1), angle % STEP) as i64
    }
}

/// Between two neighbouring entries, the first at most the second, `rest` units behind
/// the first: nearest of (entry * (step - rest) + next * rest) / step.
#[inline(always)]
pub fn interpolate(entry: u64, next: u64, rest: u64) -> u64 {
    let numerator = entry * STEP + (next - entry) * rest;
    (2 * numerator + STEP) / (2 * STEP)
}

#[cfg(test)]
mod tests {
    use super::*;

    /// Document 01, "Numbers to prove together".
    #[test]
    fn numbers_of_document_01() {
        let sine = Sine::new();
        let cases = [
            (1_500_000, 727_221),
            (3_000_000, 1_454_441),
            (QUADRANT / 3, 500_000_000),
            (QUADRANT / 2, 707_106_781),
            (QUADRANT / 3 * 2, 866_025_404),
            (QUADRANT, 1_000_000_000),
        ];
        for (angle, value) in cases {
            assert_eq!(sine.sin(angle), value);
            assert_eq!(sine.sin(-angle), -value);
        }
    }
}
