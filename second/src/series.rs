//! Sums of periodic terms, for any list of terms. Document 01, "The Sun".
//! The lists themselves stand in `frame` and `edition`.

use crate::arguments::{Argument, Arguments};
use crate::exact::{floor, over_scale, MILLION, MILLION_SQUARED, QUADRANT};
use crate::natural::Natural;
use crate::polynomial::{Numerator, Polynomial};
use crate::sine::Sine;

/// How many arguments a list may combine.
pub const WIDTH: usize = 4;

/// An amplitude in whole units.
#[derive(Clone, Copy, Debug)]
pub enum Amplitude {
    /// One number for all time.
    Fixed(i64),
    /// c0 + floor(c1 * q / 10^6) + floor(c2 * q^2 / 10^12).
    Varying(i64, i64, i64),
}

impl Amplitude {
    /// The amplitude at q.
    #[inline(always)]
    pub fn at(self, q: i64) -> i64 {
        match self {
            Amplitude::Fixed(c0) => c0,
            Amplitude::Varying(c0, c1, c2) => {
                c0 + floor(c1 * q, MILLION) + floor(c2 * q * q, MILLION_SQUARED)
            }
        }
    }
}

/// One term: amplitude times the list's function of (constant + multiples of arguments).
#[derive(Clone, Copy, Debug)]
pub struct Term {
    pub amplitude: Amplitude,
    /// In units.
    pub constant: i64,
    /// One multiple for each argument of the list, in its order.
    pub multiples: [i64; WIDTH],
}

/// The function of a list.
#[derive(Clone, Copy, Debug, PartialEq, Eq)]
pub enum Function {
    Sine,
    Cosine,
}

impl Function {
    /// What is added to an angle whose sine is taken, in units: Cos(a) = Sin(a + Q).
    #[inline(always)]
    pub fn phase(self) -> i64 {
        match self {
            Function::Sine => 0,
            Function::Cosine => QUADRANT,
        }
    }
}

/// A list of terms over the same arguments and with the same function.
#[derive(Debug)]
pub struct List {
    pub function: Function,
    pub arguments: [Argument; WIDTH],
    pub terms: &'static [Term],
}

/// Gives each term of the lists to `take`, as its amplitude and the angle whose sine it needs.
#[inline(always)]
fn each_term(lists: &[&List], arguments: &Arguments, q: i64, mut take: impl FnMut(i64, i64)) {
    for list in lists {
        let angles = list.arguments.map(|which| arguments.get(which));
        let phase = list.function.phase();
        for term in list.terms {
            let products = term.multiples.iter().zip(angles);
            let angle = products.fold(term.constant + phase, |sum, (k, angle)| sum + k * angle);
            take(term.amplitude.at(q), angle);
        }
    }
}

/// The sum of all amplitudes at q, each without its sign.
pub fn absolute_sum(lists: &[&List], q: i64) -> i64 {
    let terms = lists.iter().flat_map(|list| list.terms);
    terms.map(|term| term.amplitude.at(q).abs()).sum()
}

/// The sum with the table sine: products summed exactly, over R once, to nearest.
pub fn sum(sine: &Sine, lists: &[&List], arguments: &Arguments, q: i64) -> i64 {
    let mut total = 0;
    each_term(lists, arguments, q, |amplitude, angle| total += amplitude * sine.sin(angle));
    over_scale(total)
}

/// The sum with R * P in place of Sin: each product an exact fraction, the sum exact, over
/// R once, to nearest. Document 01, "The Sun", last paragraph.
pub fn polynomial_sum(
    polynomial: &Polynomial,
    lists: &[&List],
    arguments: &Arguments,
    q: i64,
) -> i64 {
    let (mut positive, mut negative) = (Natural::zero(), Natural::zero());
    each_term(lists, arguments, q, |amplitude, angle| {
        let value = polynomial.numerator(angle);
        let product = value.magnitude.multiply(&Natural::from_u64(amplitude.unsigned_abs()));
        let total = if value.negative == (amplitude < 0) { &mut positive } else { &mut negative };
        *total = total.add(&product);
    });
    let is_negative = positive.compare(&negative).is_lt();
    let (large, small) = if is_negative { (negative, positive) } else { (positive, negative) };
    polynomial.nearest(&Numerator { negative: is_negative, magnitude: large.subtract(&small) })
}
