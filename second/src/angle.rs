//! The angle of a vector. Document 01, "The sine", second paragraph.

use crate::exact::QUADRANT;
use crate::sine::{interpolate, Sine, STEP, STEPS};
use std::hint::select_unpredictable;

/// The angle of (x, y), 0 .. turn - 1; that of (0, 0) is 0.
pub fn angle(sine: &Sine, x: i64, y: i64) -> i64 {
    let (east, north) = (x.unsigned_abs(), y.unsigned_abs());
    match (x.signum(), y.signum()) {
        (0, 0) => 0,
        (1, 0 | 1) => in_quadrant(sine, east, north),
        (0 | -1, 1) => QUADRANT + in_quadrant(sine, north, east),
        (-1, _) => 2 * QUADRANT + in_quadrant(sine, east, north),
        _ => 3 * QUADRANT + in_quadrant(sine, north, east),
    }
}

/// Below a quadrant, the last angle at which x * Sin has not passed y * Cos; x is above 0.
/// A binary search over the table's angles, then one inside the step that it found.
fn in_quadrant(sine: &Sine, x: u64, y: u64) -> i64 {
    let passes =
        |sin: u64, cos: u64| u128::from(x) * u128::from(sin) <= u128::from(y) * u128::from(cos);
    let n = largest(STEPS as u64, |n| {
        let n = n as usize;
        passes(sine.entry(n), sine.entry(STEPS - n))
    });
    let (low, high) = (n as usize, STEPS - n as usize);
    let (sin_low, sin_high) = (sine.entry(low), sine.entry(low + 1));
    let (cos_low, cos_high) = (sine.entry(high - 1), sine.entry(high));
    let rest = largest(STEP, |rest| {
        let sin = interpolate(sin_low, sin_high, rest);
        passes(sin, interpolate(cos_low, cos_high, STEP - rest))
    });
    (STEP * n + rest) as i64
}

/// The largest number of 0 .. limit - 1 that passes, where 0 does and passing ends once.
/// Each outcome is as likely as the other, so the choice is kept free of branches.
#[inline(always)]
fn largest(limit: u64, passes: impl Fn(u64) -> bool) -> u64 {
    let (mut good, mut count) = (0, limit);
    while count > 1 {
        let middle = good + count / 2;
        good = select_unpredictable(passes(middle), middle, good);
        count -= count / 2;
    }
    good
}

#[cfg(test)]
mod tests {
    use super::*;

    /// Document 01, "Numbers to prove together", and the corners.
    #[test]
    fn numbers_of_document_01() {
        let sine = Sine::new();
        assert_eq!(angle(&sine, 0, 0), 0);
        assert_eq!(angle(&sine, 1, 0), 1);
        assert_eq!(angle(&sine, 0, 1), 3_240_000_001);
        assert_eq!(angle(&sine, 1, 1), 1_620_000_001);
        assert_eq!(angle(&sine, -1, 0), 2 * QUADRANT + 1);
        assert_eq!(angle(&sine, 0, -1), 3 * QUADRANT + 1);
        assert_eq!(angle(&sine, i64::MIN, i64::MIN), 2 * QUADRANT + 1_620_000_001);
    }

    /// The search in two steps finds what 01's sentence says, taken word by word.
    #[test]
    fn largest_of_all_angles() {
        let sine = Sine::new();
        for (x, y) in [(1, 0), (3, 1), (1_000_000_000, 1), (1, 1_000_000_000), (7, 9)] {
            let a = angle(&sine, x, y);
            assert!(x * sine.sin(a) <= y * sine.cos(a));
            assert!(a == QUADRANT - 1 || x * sine.sin(a + 1) > y * sine.cos(a + 1));
        }
    }
}
