//! The arguments: angles that grow with ephemeris time. Document 01, "Time" and its table;
//! document 02, requests 3 and 7.

use crate::calendar::{Epoch, CENTURY};
use crate::exact::{floor, floor_product, reduce, MILLION_SQUARED};

/// The arguments of document 01, in the order of its table; then those of the
/// long period terms ("The Sun"); then those that request 7 adds.
#[derive(Clone, Copy, Debug, PartialEq, Eq)]
pub enum Argument {
    /// L, the Sun's mean longitude.
    SunLongitude,
    /// Ms, the Sun's mean anomaly.
    SunAnomaly,
    /// Mm, the Moon's mean anomaly.
    MoonAnomaly,
    /// Mv, the mean anomaly of Venus.
    VenusAnomaly,
    /// D, the Moon's mean elongation from the Sun.
    MoonElongation,
    /// The longitude of the Moon's mean ascending node.
    MoonNode,
    /// Lm, the Moon's mean longitude.
    MoonLongitude,
    /// The mean obliquity of the ecliptic.
    MeanObliquity,
    /// 231.19 + 20.20 T.
    LongPeriod1,
    /// 57.24 + 150.27 T.
    LongPeriod2,
    /// 315.60 + 893.30 T.
    LongPeriod3,
    /// 31.8 + 119.0 T.
    LongPeriod4,
    /// MM, the mean anomaly of Mars.
    MarsAnomaly,
    /// MJ, the mean anomaly of Jupiter.
    JupiterAnomaly,
    /// Msn, the mean anomaly of Saturn.
    SaturnAnomaly,
}

use Argument::*;

/// How many arguments there are.
pub const COUNT: usize = 15;

/// All arguments in their order.
pub const ALL: [Argument; COUNT] = [
    SunLongitude,
    SunAnomaly,
    MoonAnomaly,
    VenusAnomaly,
    MoonElongation,
    MoonNode,
    MoonLongitude,
    MeanObliquity,
    LongPeriod1,
    LongPeriod2,
    LongPeriod3,
    LongPeriod4,
    MarsAnomaly,
    JupiterAnomaly,
    SaturnAnomaly,
];

/// c0, c1, c2 of an argument in units; printed degrees beside them.
const COEFFICIENTS: [[i64; 3]; COUNT] = [
    // L: 279.696678, 36,000.768925, 0.000303 (01; 001 section 2.1)
    [10_069_080_408, 1_296_027_681_300, 10_908],
    // Ms: 358.475833, 35,999.04975, -0.00015 (01; 001 section 1.3)
    [12_905_129_988, 1_295_965_791_000, -5_400],
    // Mm: 296.104608, 477,198.849108, 0.009192 (01; 001 section 1.3)
    [10_659_765_888, 17_179_158_567_888, 330_912],
    // Mv: 212.603222, 58,517.803875, 0.001286 (01; 001 section 1.3)
    [7_653_715_992, 2_106_640_939_500, 46_296],
    // D: 350.737486, 445,267.114217, -0.001436 (01; 001 section 1.3)
    [12_626_549_496, 16_029_616_111_812, -51_696],
    // Node: 259.183275, -1,934.142008, 0.0020778 = 74,800.8 units (01; 002)
    [9_330_597_900, -69_629_112_288, 74_801],
    // Lm: 270.434164, 481,267.8831417 = ...101.2, -0.0011333 = -40,798.8 (01; 002)
    [9_735_629_904, 17_325_643_793_101, -40_799],
    // Obliquity: 23.452294, -0.0130125, -0.00000164 = -59.04 (01; 004)
    [844_282_584, -468_450, -59],
    // 231.19, 20.20 (01; 001 section 2.1)
    [8_322_840_000, 727_200_000, 0],
    // 57.24, 150.27 (01; 001 section 2.1)
    [2_060_640_000, 5_409_720_000, 0],
    // 315.60, 893.30 (01; 001 section 2.1)
    [11_361_600_000, 32_158_800_000, 0],
    // 31.8, 119.0 (02, request 7)
    [1_144_800_000, 4_284_000_000, 0],
    // MM: 319.529022, 19,139.859219, 0.000181 (001 section 1.3)
    [11_503_044_792, 689_034_931_884, 6_516],
    // MJ: 225.32833, 3,034.96202, -0.000722 (001 section 1.3)
    [8_111_819_880, 109_258_632_720, -25_992],
    // Msn: 175.46622, 1,221.55147, -0.000502 (001 section 1.3)
    [6_316_783_920, 43_975_852_920, -18_072],
];

/// An argument, reduced: c0, what c1 adds at N and what c2 adds at q, each of the two
/// floored. Document 01, "Time".
#[inline]
pub fn argument(which: Argument, epoch: &Epoch) -> i64 {
    let [c0, c1, c2] = COEFFICIENTS[which as usize];
    let square = epoch.millionths * epoch.millionths;
    reduce(
        c0 + floor_product(c1, epoch.milliseconds, CENTURY) + floor(c2 * square, MILLION_SQUARED),
    )
}

/// The arguments that were worked for one epoch.
#[derive(Clone, Copy, Debug)]
pub struct Arguments {
    angles: [i64; COUNT],
}

impl Arguments {
    /// The arguments in `list` at an epoch.
    pub fn at(epoch: &Epoch, list: &[Argument]) -> Self {
        let mut arguments = Arguments { angles: [0; COUNT] };
        arguments.extend(epoch, list);
        arguments
    }

    /// Works the arguments in `list` too.
    pub fn extend(&mut self, epoch: &Epoch, list: &[Argument]) {
        for &which in list {
            self.angles[which as usize] = argument(which, epoch);
        }
    }

    /// One argument, reduced.
    #[inline(always)]
    pub fn get(&self, which: Argument) -> i64 {
        self.angles[which as usize]
    }
}
