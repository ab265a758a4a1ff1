//! Polaris: the FK4 place, proper motion, precession, nutation and aberration, all by
//! ephemeris time. Document 01, "Polaris"; document 02, request 3.

use crate::arguments::Arguments;
use crate::calendar::Epoch;
use crate::exact::{floor, over_scale, MILLION, MILLION_SQUARED};
use crate::frame::Frame;
use crate::rotation::{r1, r2, r3, Direction};
use crate::sine::Sine;
use crate::sun::longitude_with_centre;

/// 1975.0, JD 2,442,413.478, in milliseconds since 1900 January 0.5 (001 section 3.2).
const EPOCH: i64 = 2_366_796_499_200;
/// A tropical century, 36,524.2199 days, in milliseconds (001 section 3.2).
const TROPICAL_CENTURY: i64 = 3_155_692_599_360;
/// Right ascension 2.1240378h, its motion 0.0056894h, twice the square 0.0028261h
/// (001 section 3.1).
const RIGHT_ASCENSION: [i64; 3] = [1_146_980_412, 3_072_276, 1_526_094];
/// Declination 89.1499556 degrees = ...401.6, its motion -0.0002167 = -7,801.2, twice the
/// square -0.0004389 = -15,800.4 (001 section 3.1).
const DECLINATION: [i64; 3] = [3_209_398_402, -7_801, -15_800];
/// zeta: 2304.250 + 1.396 * 0.75 seconds; 0.302 (004).
const ZETA: [i64; 2] = [23_052_970, 3_020];
/// z - zeta: 0.791 seconds (004).
const Z_EXCESS: i64 = 7_910;
/// theta: 2004.682 - 0.853 * 0.75 seconds = 20,040,422.5, halves up; -0.426 (004).
const THETA: [i64; 2] = [20_040_423, -4_260];
/// Stellar aberration, 20.496 seconds in radians times R, 99,367.4 (01).
const ABERRATION: i64 = 99_367;

/// The place of Polaris at an epoch, with its steps.
#[derive(Clone, Copy, Debug)]
pub struct Polaris {
    /// p, millionths of a tropical century since 1975.0.
    pub millionths: i64,
    pub right_ascension: i64,
    pub declination: i64,
    pub zeta: i64,
    pub z: i64,
    pub theta: i64,
    /// Toward the catalogue place with proper motion.
    pub catalogue: Direction,
    /// g, the Sun's longitude that gives the aberration.
    pub sun_longitude: i64,
    pub before_aberration: Direction,
    /// Toward Polaris, in the frame of the true equator and equinox.
    pub direction: Direction,
}

/// c1 * p / 10^6 and c2 * p^2 / 10^12, each floored.
fn growth(c1: i64, c2: i64, p: i64) -> i64 {
    floor(c1 * p, MILLION) + floor(c2 * p * p, MILLION_SQUARED)
}

/// A coordinate with its proper motion: the square is c2 * p^2 / (2 * 10^12).
fn with_motion([c0, c1, c2]: [i64; 3], p: i64) -> i64 {
    c0 + floor(c1 * p, MILLION) + floor(c2 * p * p, 2 * MILLION_SQUARED)
}

/// The unit vector toward a right ascension and declination.
fn toward(sine: &Sine, right_ascension: i64, declination: i64) -> Direction {
    let cos = sine.cos(declination);
    [
        over_scale(cos * sine.cos(right_ascension)),
        over_scale(cos * sine.sin(right_ascension)),
        sine.sin(declination),
    ]
}

/// The aberration of a star for the Sun's longitude g, to be added to its direction.
fn aberration(sine: &Sine, g: i64, obliquity: i64) -> Direction {
    let cos_g = sine.cos(g);
    let y = over_scale(-cos_g * sine.cos(obliquity));
    let z = over_scale(-cos_g * sine.sin(obliquity));
    [sine.sin(g), y, z].map(|component| over_scale(ABERRATION * component))
}

/// The place of Polaris; `arguments` holds those of the frame.
pub fn polaris(sine: &Sine, epoch: &Epoch, arguments: &Arguments, frame: &Frame) -> Polaris {
    let p = floor(MILLION * (epoch.milliseconds - EPOCH), TROPICAL_CENTURY);
    let right_ascension = with_motion(RIGHT_ASCENSION, p);
    let declination = with_motion(DECLINATION, p);
    let zeta = growth(ZETA[0], ZETA[1], p);
    let z = zeta + floor(Z_EXCESS * p * p, MILLION_SQUARED);
    let theta = growth(THETA[0], THETA[1], p);
    let catalogue = toward(sine, right_ascension, declination);
    let before_aberration = true_place(sine, catalogue, [zeta, theta, z], frame);
    let sun_longitude = longitude_with_centre(sine, arguments, epoch.millionths);
    let added = aberration(sine, sun_longitude, frame.obliquity);
    Polaris {
        millionths: p,
        right_ascension,
        declination,
        zeta,
        z,
        theta,
        catalogue,
        sun_longitude,
        before_aberration,
        direction: std::array::from_fn(|i| before_aberration[i] + added[i]),
    }
}

/// Precession and nutation: R3(-zeta), R2(theta), R3(-z), R1(mean obliquity),
/// R3(-nutation in longitude), R1(-obliquity), in this order.
fn true_place(
    sine: &Sine,
    catalogue: Direction,
    [zeta, theta, z]: [i64; 3],
    frame: &Frame,
) -> Direction {
    let turned = r3(sine, -zeta, catalogue);
    let turned = r2(sine, theta, turned);
    let of_date = r3(sine, -z, turned);
    let ecliptic = r1(sine, frame.mean_obliquity, of_date);
    let nutated = r3(sine, -frame.nutation_in_longitude, ecliptic);
    r1(sine, -frame.obliquity, nutated)
}
