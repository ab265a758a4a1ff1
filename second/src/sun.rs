//! The Sun by Newcomb's series: the apparent longitude s, the polynomial longitude and the
//! direction. Document 01, "The Sun"; document 02, request 7.

use crate::arguments::{Argument, Arguments};
use crate::edition::{Edition, CENTRE};
use crate::exact::reduce;
use crate::frame::{Frame, NUTATION_IN_LONGITUDE};
use crate::polynomial::Polynomial;
use crate::rotation::{r1, Direction};
use crate::series::{polynomial_sum, sum};
use crate::sine::Sine;

use Argument::SunLongitude;

/// Aberration, 20.496 seconds (01; 001 section 2.4).
pub const ABERRATION: i64 = 204_960;

/// The Sun's place at an instant.
#[derive(Clone, Copy, Debug)]
pub struct Sun {
    pub first_sum: i64,
    /// s, reduced.
    pub apparent_longitude: i64,
    /// Toward the Sun, in the frame of the true equator and equinox.
    pub direction: Direction,
}

/// L plus the centre terms alone, reduced: g of "Polaris".
pub fn longitude_with_centre(sine: &Sine, arguments: &Arguments, q: i64) -> i64 {
    reduce(arguments.get(SunLongitude) + sum(sine, &[&CENTRE], arguments, q))
}

/// The Sun's place by an edition; `arguments` holds those of the frame and of the edition.
pub fn sun(sine: &Sine, edition: Edition, arguments: &Arguments, q: i64, frame: &Frame) -> Sun {
    let first_sum = sum(sine, edition.first_sum(), arguments, q);
    let apparent_longitude = longitude(arguments, first_sum, frame.nutation_in_longitude);
    let ecliptic = [sine.cos(apparent_longitude), sine.sin(apparent_longitude), 0];
    Sun { first_sum, apparent_longitude, direction: r1(sine, -frame.obliquity, ecliptic) }
}

/// The polynomial longitude, worked as s is but with R * P in place of the table sine.
pub fn polynomial_longitude(
    polynomial: &Polynomial,
    edition: Edition,
    arguments: &Arguments,
    q: i64,
) -> i64 {
    let first_sum = polynomial_sum(polynomial, edition.first_sum(), arguments, q);
    let nutation = polynomial_sum(polynomial, &[&NUTATION_IN_LONGITUDE], arguments, q);
    longitude(arguments, first_sum, nutation)
}

/// L + first sum + nutation in longitude - aberration, reduced.
fn longitude(arguments: &Arguments, first_sum: i64, nutation: i64) -> i64 {
    reduce(arguments.get(SunLongitude) + first_sum + nutation - ABERRATION)
}
