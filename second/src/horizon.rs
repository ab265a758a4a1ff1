//! Turning to the horizon. Document 01, "The horizon".

use crate::angle::angle;
use crate::exact::{over_scale, square_root};
use crate::refusal::Refusal;
use crate::rotation::{r3, Direction};
use crate::sine::Sine;

/// Units in a field's 0.1 second of arc.
const UNITS_A_FIELD: i64 = 1_000;
/// Refusal 8 is given below this north^2 + east^2.
const LEAST_SQUARE: i64 = 100_000_000_000_000;

/// A body's direction in the horizon's frame, scaled to R.
#[derive(Clone, Copy, Debug)]
pub struct Components {
    /// x', in the plane of the meridian and the equator.
    pub x: i64,
    pub east: i64,
    /// Along the Earth's axis.
    pub z: i64,
    pub up: i64,
    pub north: i64,
    /// north^2 + east^2.
    pub square: i64,
}

/// The three angles of an answered shot, with h.
#[derive(Clone, Copy, Debug)]
pub struct HorizonAngles {
    /// h, the floor of the root of north^2 + east^2.
    pub horizontal: i64,
    pub azimuth: i64,
    pub zenith_distance: i64,
    pub hour_angle: i64,
}

/// The components at a latitude and longitude in 0.1 seconds, north and east positive.
pub fn components(
    sine: &Sine,
    direction: Direction,
    sidereal_time: i64,
    latitude: i64,
    longitude: i64,
) -> Components {
    let turn = sidereal_time + UNITS_A_FIELD * longitude;
    let [x, east, z] = r3(sine, turn, direction);
    let latitude = UNITS_A_FIELD * latitude;
    let (sin, cos) = (sine.sin(latitude), sine.cos(latitude));
    let up = over_scale(x * cos + z * sin);
    let north = over_scale(z * cos - x * sin);
    Components { x, east, z, up, north, square: north * north + east * east }
}

/// Azimuth, zenith distance and hour angle, or refusal 7 or 8.
pub fn angles(sine: &Sine, components: &Components) -> Result<HorizonAngles, Refusal> {
    let Components { x, east, up, north, square, .. } = *components;
    if up < 0 {
        return Err(Refusal::BelowHorizon);
    }
    if square < LEAST_SQUARE {
        return Err(Refusal::NearZenith);
    }
    let horizontal = square_root(square as u64) as i64;
    Ok(HorizonAngles {
        horizontal,
        azimuth: angle(sine, north, east),
        zenith_distance: angle(sine, up, horizontal),
        hour_angle: angle(sine, x, -east),
    })
}
