//! Whole-number arithmetic: floor, nearest, reduction, square root.
//! Document 01, "Units and rounding".

/// A quadrant, 90 degrees, in units of 0.0001 second of arc.
pub const QUADRANT: i64 = 3_240_000_000;
/// A turn, 360 degrees, in units.
pub const TURN: i64 = 4 * QUADRANT;
/// R, the scale of the sine.
pub const SCALE: i64 = 1_000_000_000;
/// Millionths: the scale of q and p.
pub const MILLION: i64 = 1_000_000;
/// The scale of q squared and p squared.
pub const MILLION_SQUARED: i64 = 1_000_000_000_000;

/// Floor of `numerator / denominator`, toward minus infinity; the denominator is positive.
#[inline(always)]
pub fn floor(numerator: i64, denominator: i64) -> i64 {
    numerator.div_euclid(denominator)
}

/// Floor of `factor * value / denominator`, where the product may pass 64 bits.
#[inline]
pub fn floor_product(factor: i64, value: i64, denominator: i64) -> i64 {
    let product = i128::from(factor) * i128::from(value);
    product.div_euclid(i128::from(denominator)) as i64
}

/// Nearest: floor of the exact quotient plus one half.
#[inline(always)]
pub fn nearest(numerator: i64, denominator: i64) -> i64 {
    floor(2 * numerator + denominator, 2 * denominator)
}

/// Nearest of a sum of products over R.
#[inline(always)]
pub fn over_scale(sum: i64) -> i64 {
    nearest(sum, SCALE)
}

/// An angle reduced to 0 .. turn - 1.
#[inline(always)]
pub fn reduce(angle: i64) -> i64 {
    angle.rem_euclid(TURN)
}

/// Whether an angle is 0 .. turn - 1 as it stands.
#[inline(always)]
pub fn is_reduced(angle: i64) -> bool {
    (0..TURN).contains(&angle)
}

/// How far two reduced angles are apart, the short way round.
pub fn short_way(a: i64, b: i64) -> i64 {
    let difference = (a - b).abs();
    difference.min(TURN - difference)
}

/// The square root, rounded down.
#[inline]
pub fn square_root(value: u64) -> u64 {
    value.isqrt()
}

#[cfg(test)]
mod tests {
    use super::*;

    #[test]
    fn floor_goes_toward_minus_infinity() {
        assert_eq!(floor(-1, 2), -1);
        assert_eq!(floor(-4, 2), -2);
        assert_eq!(floor(3, 2), 1);
        assert_eq!(floor_product(i64::MIN, i64::MAX, i64::MAX), i64::MIN);
        assert_eq!(floor_product(-1, 1, i64::MAX), -1);
    }

    #[test]
    fn nearest_takes_halves_up() {
        assert_eq!(nearest(1, 2), 1);
        assert_eq!(nearest(-1, 2), 0);
        assert_eq!(nearest(-3, 2), -1);
        assert_eq!(nearest(-5, 3), -2);
    }

    #[test]
    fn short_way_goes_over_north_or_not() {
        assert_eq!(short_way(5, 2), 3);
        assert_eq!(short_way(1, TURN - 2), 3);
        assert_eq!(short_way(TURN - 2, 1), 3);
        assert_eq!(short_way(0, TURN / 2), TURN / 2);
        assert_eq!(short_way(TURN / 2 + 1, 0), TURN / 2 - 1);
        assert_eq!(short_way(7, 7), 0);
    }
}
