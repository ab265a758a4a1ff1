//! Nutation, obliquity and sidereal time. Document 01, "The Sun" (nutation) and "Time";
//! document 02, request 3.

use crate::arguments::{Argument, Arguments};
use crate::calendar::{Epoch, Instant, CENTURY, HALF_DAY};
use crate::exact::{floor, floor_product, over_scale, reduce, MILLION_SQUARED};
use crate::series::{sum, Amplitude, Function, List, Term};
use crate::sine::Sine;

use Amplitude::{Fixed, Varying};
use Argument::{MeanObliquity, MoonLongitude, MoonNode, SunAnomaly, SunLongitude};

/// The arguments that the frame stands on.
pub const FRAME_ARGUMENTS: [Argument; 5] =
    [SunLongitude, SunAnomaly, MoonNode, MoonLongitude, MeanObliquity];

/// A term of the nutation in multiples of node, L, Lm, Ms.
const fn term(amplitude: Amplitude, multiples: [i64; 4]) -> Term {
    Term { amplitude, constant: 0, multiples }
}

/// Nutation in longitude, seconds (01; 000 Table 3; Explanatory Supplement 1961).
pub const NUTATION_IN_LONGITUDE: List = List {
    function: Function::Sine,
    arguments: [MoonNode, SunLongitude, MoonLongitude, SunAnomaly],
    terms: &[
        // -(17.2327 + 0.01737 T) sin node; -0.01737 = -173.7 units
        term(Varying(-172_327, -174, 0), [1, 0, 0, 0]),
        // 0.2088 sin 2 node
        term(Fixed(2_088), [2, 0, 0, 0]),
        // -1.2729 sin 2L
        term(Fixed(-12_729), [0, 2, 0, 0]),
        // -0.2037 sin 2Lm
        term(Fixed(-2_037), [0, 0, 2, 0]),
        // 0.1261 sin Ms
        term(Fixed(1_261), [0, 0, 0, 1]),
    ],
};

/// Nutation in obliquity, seconds (01; 000 Table 3; Explanatory Supplement 1961).
pub const NUTATION_IN_OBLIQUITY: List = List {
    function: Function::Cosine,
    arguments: [MoonNode, SunLongitude, MoonLongitude, SunAnomaly],
    terms: &[
        // 9.2100 cos node
        term(Fixed(92_100), [1, 0, 0, 0]),
        // 0.5522 cos 2L
        term(Fixed(5_522), [0, 2, 0, 0]),
        // -0.0904 cos 2 node
        term(Fixed(-904), [2, 0, 0, 0]),
        // 0.0884 cos 2Lm
        term(Fixed(884), [0, 0, 2, 0]),
    ],
};

/// Sidereal time at the epoch, 6h 38m 45.836s (01, Newcomb).
const SIDEREAL_C0: i64 = 3_588_875_400;
/// Its motion in a century beyond one turn a day, 8,640,184.542s (01, Newcomb).
const SIDEREAL_C1: i64 = 1_296_027_681_300;
/// Its square, 0.0929s (01, Newcomb).
const SIDEREAL_C2: i64 = 13_935;
/// Units of sidereal angle in a millisecond of time: 15 seconds of arc a second.
const UNITS_A_MILLISECOND: i64 = 150;

/// The Earth's orientation at an instant, in units.
#[derive(Clone, Copy, Debug)]
pub struct Frame {
    pub nutation_in_longitude: i64,
    pub nutation_in_obliquity: i64,
    pub mean_obliquity: i64,
    /// Mean obliquity plus its nutation.
    pub obliquity: i64,
    /// Apparent sidereal time at longitude 0, reduced.
    pub sidereal_time: i64,
}

/// The frame at an instant; `arguments` holds `FRAME_ARGUMENTS` by ephemeris time. All but
/// the mean sidereal time goes by it, the equation of the equinoxes too.
pub fn frame(sine: &Sine, instant: &Instant, arguments: &Arguments) -> Frame {
    let q = instant.ephemeris.millionths;
    let nutation_in_longitude = sum(sine, &[&NUTATION_IN_LONGITUDE], arguments, q);
    let nutation_in_obliquity = sum(sine, &[&NUTATION_IN_OBLIQUITY], arguments, q);
    let mean_obliquity = arguments.get(MeanObliquity);
    let obliquity = mean_obliquity + nutation_in_obliquity;
    let equation_of_equinoxes = over_scale(nutation_in_longitude * sine.cos(obliquity));
    Frame {
        nutation_in_longitude,
        nutation_in_obliquity,
        mean_obliquity,
        obliquity,
        sidereal_time: reduce(mean_sidereal_time(&instant.universal) + equation_of_equinoxes),
    }
}

/// Newcomb's mean sidereal time at longitude 0 and an epoch of UT1, not yet reduced.
fn mean_sidereal_time(epoch: &Epoch) -> i64 {
    let Epoch { milliseconds, millionths } = *epoch;
    UNITS_A_MILLISECOND * (milliseconds + HALF_DAY)
        + SIDEREAL_C0
        + floor_product(SIDEREAL_C1, milliseconds, CENTURY)
        + floor(SIDEREAL_C2 * millionths * millionths, MILLION_SQUARED)
}

#[cfg(test)]
mod tests {
    use super::*;
    use crate::calendar::instant;

    /// The sidereal time where these are the two times of an instant.
    fn sidereal_time(universal: Epoch, ephemeris: Epoch) -> i64 {
        let arguments = Arguments::at(&ephemeris, &FRAME_ARGUMENTS);
        frame(&Sine::new(), &Instant { universal, ephemeris }, &arguments).sidereal_time
    }

    /// 4 December 2002 in the outside vectors of parts. By ET alone it would be far later; with
    /// the nutation by UT1 too, two units less.
    #[test]
    fn mean_part_by_ut1_and_nutation_by_et() {
        let Instant { universal, ephemeris } =
            instant(&[2002, 12, 4, 6, 19, 52_042, 317, 120_000]).unwrap();
        assert_eq!(sidereal_time(universal, ephemeris), 6_043_058_509);
        assert_eq!(sidereal_time(ephemeris, ephemeris), 6_061_107_791);
        assert_eq!(sidereal_time(universal, universal), 6_043_058_507);
    }

    /// A millisecond before q is a million, one of ΔT takes only the other q there.
    #[test]
    fn square_by_the_q_of_ut1() {
        let Instant { universal, ephemeris } =
            instant(&[2000, 1, 1, 11, 59, 59_999, 0, 1]).unwrap();
        assert_eq!((universal.millionths, ephemeris.millionths), (999_999, 1_000_000));
        assert_eq!(sidereal_time(universal, ephemeris), sidereal_time(universal, universal));
        let other_q = Epoch { millionths: ephemeris.millionths, ..universal };
        assert_eq!(mean_sidereal_time(&other_q), mean_sidereal_time(&universal) + 1);
    }
}
