//! All intermediate numbers of a shot by name, as the outside vectors write them.

use crate::arguments::{Arguments, ALL};
use crate::calendar::Instant;
use crate::edition::CENTRE;
use crate::exact::reduce;
use crate::fieldbook::{reduction, Body, Fields, Reduction};
use crate::horizon::{Components, HorizonAngles};
use crate::options::Options;
use crate::polaris::Polaris;
use crate::refusal::Refusal;
use crate::rotation::Direction;
use crate::series::sum;
use crate::sine::Sine;
use crate::sun::{Sun, ABERRATION};

/// The vectors' names of the arguments, in the order of `ALL`.
const ARGUMENT_NAMES: [&str; 15] =
    ["L", "Ms", "Mm", "Mv", "D", "Om", "Lm", "obl", "lp1", "lp2", "lp3", "lp4", "MM", "MJ", "Msn"];

/// Names and values with one space between.
struct Listing(Vec<String>);

impl Listing {
    /// A name and its number.
    fn number(&mut self, name: &str, value: i64) {
        self.0.push(format!("{name} {value}"));
    }

    /// A name and its three components.
    fn direction(&mut self, name: &str, [x, y, z]: Direction) {
        self.0.push(format!("{name} {x},{y},{z}"));
    }
}

/// The steps of an answered shot on one line, or its refusal.
pub fn parts(sine: &Sine, fields: &Fields, options: Options) -> Result<String, Refusal> {
    let shot = reduction(sine, fields, options)?;
    let angles = shot.horizon_angles(sine)?;
    let mut listing = Listing(Vec::new());
    time(&mut listing, &shot);
    orientation(&mut listing, &shot);
    match &shot.body {
        Body::Sun(place) => sun(&mut listing, sine, &shot, place),
        Body::Polaris(place) => polaris(&mut listing, place),
    }
    listing.direction("vector", shot.body.direction());
    horizon(&mut listing, &shot.components, &angles);
    Ok(listing.0.join(" "))
}

/// N of both times, q of the ephemeris one and every argument.
fn time(listing: &mut Listing, shot: &Reduction) {
    let Instant { universal, ephemeris } = shot.instant;
    let arguments = Arguments::at(&ephemeris, &ALL);
    listing.number("N", universal.milliseconds);
    listing.number("Ne", ephemeris.milliseconds);
    listing.number("q", ephemeris.millionths);
    for (name, which) in ARGUMENT_NAMES.into_iter().zip(ALL) {
        listing.number(name, arguments.get(which));
    }
}

/// Nutation, obliquity and sidereal time with the q of its own time.
fn orientation(listing: &mut Listing, shot: &Reduction) {
    let Reduction { instant, frame, .. } = shot;
    listing.number("dpsi", frame.nutation_in_longitude);
    listing.number("deps", frame.nutation_in_obliquity);
    listing.number("mean_obliquity", frame.mean_obliquity);
    listing.number("eps", reduce(frame.obliquity));
    listing.number("sidereal_q", instant.universal.millionths);
    listing.number("sidereal", frame.sidereal_time);
}

/// The Sun's sums and longitude.
fn sun(listing: &mut Listing, sine: &Sine, shot: &Reduction, place: &Sun) {
    let centre = sum(sine, &[&CENTRE], &shot.arguments, shot.instant.ephemeris.millionths);
    listing.number("first_sum", place.first_sum);
    listing.number("centre", centre);
    listing.number("aberration", ABERRATION);
    listing.number("s", place.apparent_longitude);
}

/// The steps of Polaris; s is 0.
fn polaris(listing: &mut Listing, place: &Polaris) {
    listing.number("p", place.millionths);
    listing.number("ra", place.right_ascension);
    listing.number("dec", place.declination);
    listing.number("zeta", place.zeta);
    listing.number("z", place.z);
    listing.number("theta", place.theta);
    listing.direction("catalogue", place.catalogue);
    listing.number("g", place.sun_longitude);
    listing.direction("before_aberration", place.before_aberration);
    listing.number("s", 0);
}

/// The components in the horizon's frame and the angles.
fn horizon(listing: &mut Listing, components: &Components, angles: &HorizonAngles) {
    listing.number("x", components.x);
    listing.number("east", components.east);
    listing.number("z_component", components.z);
    listing.number("up", components.up);
    listing.number("north", components.north);
    listing.number("hh", components.square);
    listing.number("h", angles.horizontal);
    listing.number("azimuth", angles.azimuth);
    listing.number("zenith", angles.zenith_distance);
    listing.number("hour_angle", angles.hour_angle);
}
