//! The two editions of the Sun's series: the lists of terms that the first sum holds. Document 01,
//! "The Sun"; document 02, request 7.

use crate::arguments::Argument;
use crate::refusal::Refusal;
use crate::series::{Amplitude, Function, List, Term};

use Amplitude::{Fixed, Varying};
use Argument::*;

/// An edition of the series.
#[derive(Clone, Copy, Debug, PartialEq, Eq)]
pub enum Edition {
    /// Document 01's, with Venus alone of the planets.
    Short,
    /// With Mars, Jupiter and Saturn, and with a fourth long period term.
    Full,
}

/// The number of the short edition.
pub const SHORT: i64 = 1;
/// The number of the full edition.
pub const FULL: i64 = 2;

impl Edition {
    /// The edition that the caller names, or refusal 19.
    pub fn from_number(number: i64) -> Result<Self, Refusal> {
        match number {
            SHORT => Ok(Edition::Short),
            FULL => Ok(Edition::Full),
            _ => Err(Refusal::NoSuchEdition),
        }
    }

    /// The lists of the first sum.
    pub fn first_sum(self) -> &'static [&'static List] {
        match self {
            Edition::Short => &[&CENTRE, &LONG_PERIOD, &MOON, &VENUS],
            Edition::Full => &[&CENTRE, &FULL_LONG_PERIOD, &MOON, &VENUS, &MARS, &JUPITER, &SATURN],
        }
    }

    /// The arguments of the first sum beyond those of the frame.
    pub fn arguments(self) -> &'static [Argument] {
        match self {
            Edition::Short => &ARGUMENTS[..6],
            Edition::Full => &ARGUMENTS,
        }
    }
}

/// The arguments beyond those of the frame, those of the short edition first.
const ARGUMENTS: [Argument; 10] = [
    MoonAnomaly,
    VenusAnomaly,
    MoonElongation,
    LongPeriod1,
    LongPeriod2,
    LongPeriod3,
    LongPeriod4,
    MarsAnomaly,
    JupiterAnomaly,
    SaturnAnomaly,
];

/// A sine term without a constant.
const fn sine_term(amplitude: Amplitude, multiples: [i64; 4]) -> Term {
    Term { amplitude, constant: 0, multiples }
}

/// A cosine term of a planet: constant + multiples of its mean anomaly and of Ms.
const fn planet_term(amplitude: i64, constant: i64, planet: i64, sun: i64) -> Term {
    Term { amplitude: Fixed(amplitude), constant, multiples: [planet, sun, 0, 0] }
}

/// The terms of a planet in multiples of its mean anomaly and of Ms.
const fn of_planet(anomaly: Argument, terms: &'static [Term]) -> List {
    let arguments = [anomaly, SunAnomaly, SunAnomaly, SunAnomaly];
    List { function: Function::Cosine, arguments, terms }
}

/// The equation of the centre, degrees (01; 001 section 2.1), in multiples of Ms.
pub const CENTRE: List = List {
    function: Function::Sine,
    arguments: [SunAnomaly; 4],
    terms: &[
        // 1.9194603 = 69,100,570.8; -0.0047889 = -172,400.4; -0.0000144 = -518.4
        sine_term(Varying(69_100_571, -172_400, -518), [1, 0, 0, 0]),
        // 0.0200939 = 723,380.4; -0.0001003 = -3,610.8
        sine_term(Varying(723_380, -3_611, 0), [2, 0, 0, 0]),
        // 0.0002928 = 10,540.8
        sine_term(Fixed(10_541), [3, 0, 0, 0]),
        // 0.0000050
        sine_term(Fixed(180), [4, 0, 0, 0]),
    ],
};

/// The long period terms of the short edition, seconds (01; 001 section 2.1).
const LONG_PERIOD: List = List {
    function: Function::Sine,
    arguments: [LongPeriod1, LongPeriod2, LongPeriod3, LongPeriod3],
    terms: &[
        // 6.40
        sine_term(Fixed(64_000), [1, 0, 0, 0]),
        // 1.882
        sine_term(Fixed(18_820), [0, 1, 0, 0]),
        // 0.202
        sine_term(Fixed(2_020), [0, 0, 1, 0]),
    ],
};

/// The long period terms of the full edition, seconds (02, request 7).
const FULL_LONG_PERIOD: List = List {
    function: Function::Sine,
    arguments: [LongPeriod1, LongPeriod2, LongPeriod3, LongPeriod4],
    terms: &[
        // 6.40
        sine_term(Fixed(64_000), [1, 0, 0, 0]),
        // 1.882 - 0.016 T
        sine_term(Varying(18_820, -160, 0), [0, 1, 0, 0]),
        // 0.202
        sine_term(Fixed(2_020), [0, 0, 1, 0]),
        // 0.266
        sine_term(Fixed(2_660), [0, 0, 0, 1]),
    ],
};

/// The Moon's terms, seconds (01; 001 section 2.1), in multiples of D, Mm, Ms.
const MOON: List = List {
    function: Function::Sine,
    arguments: [MoonElongation, MoonAnomaly, SunAnomaly, SunAnomaly],
    terms: &[
        // 6.454 sin D
        sine_term(Fixed(64_540), [1, 0, 0, 0]),
        // 0.013 sin 3D
        sine_term(Fixed(130), [3, 0, 0, 0]),
        // 0.177 sin(D + Mm)
        sine_term(Fixed(1_770), [1, 1, 0, 0]),
        // -0.424 sin(D - Mm)
        sine_term(Fixed(-4_240), [1, -1, 0, 0]),
        // 0.039 sin(3D - Mm)
        sine_term(Fixed(390), [3, -1, 0, 0]),
        // -0.064 sin(D + Ms)
        sine_term(Fixed(-640), [1, 0, 1, 0]),
        // 0.172 sin(D - Ms)
        sine_term(Fixed(1_720), [1, 0, -1, 0]),
        // -0.013 sin(D - Mm - Ms)
        sine_term(Fixed(-130), [1, -1, -1, 0]),
    ],
};

/// The terms of Venus, seconds, with constants in degrees (001 section 2.1).
const VENUS: List = of_planet(
    VenusAnomaly,
    &[
        // 4.838 cos(299.102 + Mv - Ms)
        planet_term(48_380, 10_767_672_000, 1, -1),
        // 0.116 cos(148.900 + 2Mv - Ms)
        planet_term(1_160, 5_360_400_000, 2, -1),
        // 5.526 cos(148.313 + 2Mv - 2Ms)
        planet_term(55_260, 5_339_268_000, 2, -2),
        // 2.497 cos(315.943 + 2Mv - 3Ms)
        planet_term(24_970, 11_373_948_000, 2, -3),
        // 0.666 cos(177.710 + 3Mv - 3Ms)
        planet_term(6_660, 6_397_560_000, 3, -3),
        // 1.559 cos(345.253 + 3Mv - 4Ms)
        planet_term(15_590, 12_429_108_000, 3, -4),
        // 1.024 cos(318.150 + 3Mv - 5Ms)
        planet_term(10_240, 11_453_400_000, 3, -5),
        // 0.210 cos(206.200 + 4Mv - 4Ms)
        planet_term(2_100, 7_423_200_000, 4, -4),
        // 0.144 cos(195.400 + 4Mv - 5Ms)
        planet_term(1_440, 7_034_400_000, 4, -5),
        // 0.152 cos(343.800 + 4Mv - 6Ms)
        planet_term(1_520, 12_376_800_000, 4, -6),
        // 0.123 cos(195.300 + 5Mv - 7Ms)
        planet_term(1_230, 7_030_800_000, 5, -7),
        // 0.154 cos(359.600 + 5Mv - 8Ms)
        planet_term(1_540, 12_945_600_000, 5, -8),
    ],
);

/// The terms of Mars, seconds, with constants in degrees (001 section 2.1). For 105.880 the tables
/// of 000 and 002 have 105.18; 001 goes before them.
const MARS: List = of_planet(
    MarsAnomaly,
    &[
        // 0.273 cos(217.700 - MM + Ms)
        planet_term(2_730, 7_837_200_000, -1, 1),
        // 2.043 cos(343.888 - 2MM + 2Ms)
        planet_term(20_430, 12_379_968_000, -2, 2),
        // 1.770 cos(200.402 - 2MM + Ms)
        planet_term(17_700, 7_214_472_000, -2, 1),
        // 0.129 cos(294.200 - 3MM + 3Ms)
        planet_term(1_290, 10_591_200_000, -3, 3),
        // 0.425 cos(338.880 - 3MM + 2Ms)
        planet_term(4_250, 12_199_680_000, -3, 2),
        // 0.500 cos(105.880 - 4MM + 3Ms)
        planet_term(5_000, 3_811_680_000, -4, 3),
        // 0.585 cos(334.060 - 4MM + 2Ms)
        planet_term(5_850, 12_026_160_000, -4, 2),
        // 0.204 cos(100.800 - 5MM + 3Ms)
        planet_term(2_040, 3_628_800_000, -5, 3),
        // 0.154 cos(227.400 - 6MM + 4Ms)
        planet_term(1_540, 8_186_400_000, -6, 4),
        // 0.101 cos(96.300 - 6MM + 3Ms)
        planet_term(1_010, 3_466_800_000, -6, 3),
        // 0.106 cos(222.700 - 7MM + 4Ms)
        planet_term(1_060, 8_017_200_000, -7, 4),
    ],
);

/// The terms of Jupiter, seconds, with constants in degrees (001 section 2.1).
const JUPITER: List = of_planet(
    JupiterAnomaly,
    &[
        // 0.163 cos(198.600 - MJ + 2Ms)
        planet_term(1_630, 7_149_600_000, -1, 2),
        // 7.208 cos(179.532 - MJ + Ms)
        planet_term(72_080, 6_463_152_000, -1, 1),
        // 2.600 cos(263.217 - MJ)
        planet_term(26_000, 9_475_812_000, -1, 0),
        // 2.731 cos(87.145 - 2MJ + 2Ms)
        planet_term(27_310, 3_137_220_000, -2, 2),
        // 1.610 cos(109.493 - 2MJ + Ms)
        planet_term(16_100, 3_941_748_000, -2, 1),
        // 0.164 cos(170.500 - 3MJ + 3Ms)
        planet_term(1_640, 6_138_000_000, -3, 3),
        // 0.556 cos(82.650 - 3MJ + 2Ms)
        planet_term(5_560, 2_975_400_000, -3, 2),
        // 0.210 cos(98.500 - 3MJ + Ms)
        planet_term(2_100, 3_546_000_000, -3, 1),
    ],
);

/// The terms of Saturn, seconds, with constants in degrees (001 section 2.1). The last is lost
/// there behind a plus: it is that of 000 Table 2.
const SATURN: List = of_planet(
    SaturnAnomaly,
    &[
        // 0.419 cos(100.580 - Msn + Ms)
        planet_term(4_190, 3_620_880_000, -1, 1),
        // 0.320 cos(269.460 - Msn)
        planet_term(3_200, 9_700_560_000, -1, 0),
        // 0.108 cos(290.600 - 2Msn + 2Ms)
        planet_term(1_080, 10_461_600_000, -2, 2),
        // 0.112 cos(293.600 - 2Msn + Ms)
        planet_term(1_120, 10_569_600_000, -2, 1),
    ],
);

#[cfg(test)]
mod tests {
    use super::*;

    #[test]
    fn editions_by_their_numbers() {
        assert_eq!(Edition::from_number(1), Ok(Edition::Short));
        assert_eq!(Edition::from_number(2), Ok(Edition::Full));
        for number in [i64::MIN, -2, -1, 0, 3, 257, (1 << 32) + 2, i64::MAX] {
            assert_eq!(Edition::from_number(number), Err(Refusal::NoSuchEdition));
        }
    }

    /// How many terms the lists of an edition have.
    fn counts(edition: Edition) -> Vec<usize> {
        edition.first_sum().iter().map(|list| list.terms.len()).collect()
    }

    #[test]
    fn terms_of_each_edition() {
        assert_eq!(counts(Edition::Short), [4, 3, 8, 12]);
        assert_eq!(counts(Edition::Full), [4, 4, 8, 12, 11, 8, 4]);
    }
}
