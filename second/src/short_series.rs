//! What the short edition of the Sun's series costs: the longitudes of both editions, how far they
//! are apart, and the sum of the amplitudes that the short one leaves out. Document 02, request 8.

use crate::arguments::{Arguments, ALL, COUNT};
use crate::calendar::instant;
use crate::edition::Edition;
use crate::exact::{reduce, short_way};
use crate::frame::frame;
use crate::refusal::Refusal;
use crate::series::{Amplitude, List, Term};
use crate::sine::Sine;
use crate::sun::sun;
use std::collections::BTreeMap;
use std::sync::LazyLock;

/// What the short edition leaves out of the full one.
static LEFT_OUT: LazyLock<LeftOut> =
    LazyLock::new(|| LeftOut::new(Edition::Short.first_sum(), Edition::Full.first_sum()));

/// Both editions at an instant, all in units.
#[derive(Clone, Copy, Debug, PartialEq, Eq)]
pub struct Cost {
    /// The Sun's apparent longitude by the short edition, reduced.
    pub short: i64,
    /// The same by the full edition.
    pub full: i64,
    /// How far these are apart, the short way round.
    pub apart: i64,
    /// The amplitudes that the short edition leaves out, without their signs, summed. The two are
    /// never farther apart; the unit more that the request allows is not needed, since rounding both
    /// sums to nearest keeps them within a whole number of units.
    pub bound: i64,
}

impl Cost {
    /// The four numbers in the order in which the C interface answers them.
    pub fn words(&self) -> [u64; 4] {
        [self.short, self.full, self.apart, self.bound].map(|number| number as u64)
    }
}

/// Both editions at the instant of fields 1 to 7 and 11, or the first of the refusals 2, 3, 4 and
/// 17 that applies.
pub fn cost(sine: &Sine, fields: &[i64; 8]) -> Result<Cost, Refusal> {
    let instant = instant(fields)?;
    let q = instant.ephemeris.millionths;
    let arguments = Arguments::at(&instant.ephemeris, &ALL);
    let frame = frame(sine, &instant, &arguments);
    let [short, full] = [Edition::Short, Edition::Full]
        .map(|edition| sun(sine, edition, &arguments, q, &frame).apparent_longitude);
    Ok(Cost { short, full, apart: short_way(short, full), bound: LEFT_OUT.absolute_sum(q) })
}

/// By what a term is known in two lists: the phase of its sine, in units, and its multiple of each
/// argument.
#[derive(Clone, Copy, Debug, PartialEq, Eq, PartialOrd, Ord)]
struct TermAngle {
    phase: i64,
    multiples: [i64; COUNT],
}

impl TermAngle {
    /// The angle of a term of a list, which may name an argument twice.
    fn of(list: &List, term: &Term) -> Self {
        let mut multiples = [0; COUNT];
        for (which, multiple) in list.arguments.into_iter().zip(term.multiples) {
            multiples[which as usize] += multiple;
        }
        TermAngle { phase: reduce(term.constant + list.function.phase()), multiples }
    }
}

/// The amplitudes of one angle in two lists; a list without a term of that angle has none.
#[derive(Debug, Default)]
struct Pair {
    short: Vec<Amplitude>,
    full: Vec<Amplitude>,
}

impl Pair {
    /// What the short list leaves out at q, with its sign.
    fn left_out(&self, q: i64) -> i64 {
        let at = |amplitudes: &[Amplitude]| amplitudes.iter().map(|a| a.at(q)).sum::<i64>();
        at(&self.full) - at(&self.short)
    }
}

/// What some lists of terms leave out of others, angle by angle.
#[derive(Debug)]
struct LeftOut {
    pairs: BTreeMap<TermAngle, Pair>,
}

impl LeftOut {
    /// The terms of both, paired by their angles.
    fn new(short: &[&List], full: &[&List]) -> Self {
        let mut pairs: BTreeMap<TermAngle, Pair> = BTreeMap::new();
        for (angle, amplitude) in terms(short) {
            pairs.entry(angle).or_default().short.push(amplitude);
        }
        for (angle, amplitude) in terms(full) {
            pairs.entry(angle).or_default().full.push(amplitude);
        }
        LeftOut { pairs }
    }

    /// The amplitudes left out at q, without their signs, summed: where one side alone has a term
    /// its whole amplitude, where both have it the difference of the two.
    fn absolute_sum(&self, q: i64) -> i64 {
        self.pairs.values().map(|pair| pair.left_out(q).abs()).sum()
    }
}

/// Every term of some lists by its angle, with its amplitude.
fn terms<'a>(lists: &'a [&List]) -> impl Iterator<Item = (TermAngle, Amplitude)> + 'a {
    lists
        .iter()
        .flat_map(|list| list.terms.iter().map(|term| (TermAngle::of(list, term), term.amplitude)))
}

#[cfg(test)]
mod tests {
    use super::*;
    use crate::arguments::Argument::{self, *};
    use crate::exact::QUADRANT;
    use crate::series::Function;
    use Amplitude::{Fixed, Varying};

    /// What edition 1 lacks, in units, as 02 and 001 section 2.1 print it in seconds of arc: the
    /// fourth long period term, then the lists of Mars, Jupiter and Saturn.
    const LACKING: [i64; 24] = [
        2_660, 2_730, 20_430, 17_700, 1_290, 4_250, 5_000, 5_850, 2_040, 1_540, 1_010, 1_060,
        1_630, 72_080, 26_000, 27_310, 16_100, 1_640, 5_560, 2_100, 4_190, 3_200, 1_080, 1_120,
    ];

    /// The amplitudes of some terms at q by their angles, which must all be different.
    fn amplitudes(lists: &[&List], q: i64) -> BTreeMap<TermAngle, i64> {
        let found: BTreeMap<TermAngle, i64> =
            terms(lists).map(|(angle, amplitude)| (angle, amplitude.at(q))).collect();
        assert_eq!(found.len(), terms(lists).count());
        found
    }

    /// What the short edition lacks comes to 22.757 seconds. The amplitude that changed is smaller
    /// by 0.0122 at the first q, by 0.016 at the end of the century, by a unit more at the next q,
    /// and by 0.024 at the last.
    #[test]
    fn amplitudes_left_out_worked_by_hand() {
        assert_eq!(LACKING.iter().sum::<i64>(), 227_570);
        let sums = [(759_986, 122), (1_000_000, 160), (1_000_001, 161), (1_500_000, 240)];
        for (q, changed) in sums {
            assert_eq!(LEFT_OUT.absolute_sum(q), 227_570 + changed);
        }
    }

    /// At each q the terms of the short edition and those left out are the terms of the full one,
    /// each once: 24 that the short one lacks, and one that is smaller.
    #[test]
    fn short_terms_with_those_left_out_are_the_full_edition() {
        for (q, changed) in [(759_986, -122), (1_000_000, -160), (1_500_000, -240)] {
            let mut together = amplitudes(Edition::Short.first_sum(), q);
            let mut left_out = Vec::new();
            for (&angle, pair) in &LEFT_OUT.pairs {
                *together.entry(angle).or_default() += pair.left_out(q);
                left_out.push(pair.left_out(q));
            }
            assert_eq!(together, amplitudes(Edition::Full.first_sum(), q));
            left_out.retain(|&amplitude| amplitude != 0);
            left_out.sort();
            let mut expected = [LACKING.as_slice(), &[changed]].concat();
            expected.sort();
            assert_eq!(left_out, expected);
        }
    }

    /// A list of one term.
    fn list(
        function: Function,
        arguments: [Argument; 4],
        amplitude: Amplitude,
        multiples: [i64; 4],
        constant: i64,
    ) -> List {
        let term = Term { amplitude, constant, multiples };
        List { function, arguments, terms: Box::leak(Box::new([term])) }
    }

    /// What the first list leaves out of the second at q = 1,000,000.
    fn left_out(short: &List, full: &List) -> i64 {
        LeftOut::new(&[short], &[full]).absolute_sum(1_000_000)
    }

    /// The same angle is known in any writing, and another is not taken for it.
    #[test]
    fn terms_are_paired_by_their_angles() {
        let order = [MarsAnomaly, SunAnomaly, SunAnomaly, SunAnomaly];
        let other_order = [SunAnomaly, JupiterAnomaly, MarsAnomaly, SunAnomaly];
        let term = list(Function::Cosine, order, Fixed(500), [-2, 1, 0, 0], 7);
        let written = |function, amplitude, multiples, constant| {
            left_out(&term, &list(function, other_order, amplitude, multiples, constant))
        };
        assert_eq!(written(Function::Cosine, Fixed(500), [1, 0, -2, 0], 7), 0);
        assert_eq!(written(Function::Sine, Fixed(500), [3, 0, -2, -2], QUADRANT + 7), 0);
        assert_eq!(written(Function::Cosine, Fixed(-90), [1, 0, -2, 0], 7), 590);
        assert_eq!(written(Function::Cosine, Varying(500, -30, 1), [1, 0, -2, 0], 7), 29);
        assert_eq!(written(Function::Sine, Fixed(500), [1, 0, -2, 0], 7), 1_000);
        assert_eq!(written(Function::Cosine, Fixed(500), [1, 0, -2, 0], 8), 1_000);
        assert_eq!(written(Function::Cosine, Fixed(-500), [1, 0, 2, 0], 7), 1_000);
        assert_eq!(written(Function::Cosine, Fixed(500), [1, -2, 0, 0], 7), 1_000);
    }

    #[test]
    fn refusals_of_the_instant_in_their_order() {
        let sine = Sine::new();
        let mut fields = [2049, 12, 31, 23, 59, 60_999, 900, 120_000];
        assert_eq!(cost(&sine, &fields).map(|cost| cost.bound), Ok(227_810));
        let spoiled = [
            (7, 120_001, Refusal::DeltaTOutOfRange),
            (6, 901, Refusal::Dut1OutOfRange),
            (5, 61_000, Refusal::TimeNotAllowed),
            (2, 32, Refusal::NoSuchDate),
        ];
        for (place, number, expected) in spoiled {
            fields[place] = number;
            assert_eq!(cost(&sine, &fields), Err(expected));
        }
    }
}
