//! The shot with eleven plain numbers and its options. Document 01, "The card", "Refusal numbers"
//! and the last sentence of "The horizon"; document 02, requests 3 and 7.

use crate::arguments::Arguments;
use crate::calendar::{instant, Instant};
use crate::edition::Edition;
use crate::frame::{frame, Frame, FRAME_ARGUMENTS};
use crate::horizon::{angles, components, Components, HorizonAngles};
use crate::options::Options;
use crate::polaris::{polaris, Polaris};
use crate::refusal::Refusal;
use crate::rotation::Direction;
use crate::sine::Sine;
use crate::sun::{sun, Sun};

/// The eleven numbers of a shot, field 1 first.
pub type Fields = [i64; 11];

/// The largest latitude, 89 degrees in 0.1 seconds.
pub const LARGEST_LATITUDE: i64 = 3_204_000;
/// The largest longitude, 180 degrees in 0.1 seconds; its negative isn't accepted.
pub const LARGEST_LONGITUDE: i64 = 6_480_000;

/// The four angles of an answered shot, in units.
#[derive(Clone, Copy, Debug, Default, PartialEq, Eq)]
pub struct Angles {
    pub azimuth: i64,
    pub zenith_distance: i64,
    pub hour_angle: i64,
    /// s; 0 for Polaris.
    pub apparent_longitude: i64,
}

impl Angles {
    /// The four angles in the order in which the C interface answers them.
    pub fn words(&self) -> [u64; 4] {
        [self.azimuth, self.zenith_distance, self.hour_angle, self.apparent_longitude]
            .map(|angle| angle as u64)
    }
}

/// The place of the body that was shot.
#[derive(Clone, Copy, Debug)]
pub enum Body {
    Sun(Sun),
    Polaris(Polaris),
}

/// A shot with its steps, as far as the components in the horizon's frame.
#[derive(Clone, Copy, Debug)]
pub struct Reduction {
    pub instant: Instant,
    pub arguments: Arguments,
    pub frame: Frame,
    pub body: Body,
    pub components: Components,
}

impl Body {
    /// Toward the body, in the frame of the true equator and equinox.
    pub fn direction(&self) -> Direction {
        match self {
            Body::Sun(place) => place.direction,
            Body::Polaris(place) => place.direction,
        }
    }
}

impl Reduction {
    /// The horizon's angles, or refusal 7 or 8.
    pub fn horizon_angles(&self, sine: &Sine) -> Result<HorizonAngles, Refusal> {
        angles(sine, &self.components)
    }
}

/// What a shot is worked by once its numbers and options are accepted.
#[derive(Clone, Copy, Debug)]
pub struct Accepted {
    pub instant: Instant,
    pub edition: Edition,
}

/// Fields 1 to 7 and 11, the numbers of a shot's instant.
pub fn instant_fields(fields: &Fields) -> [i64; 8] {
    let [year, month, day, hour, minute, millisecond, dut1, .., delta_t] = *fields;
    [year, month, day, hour, minute, millisecond, dut1, delta_t]
}

/// What the shot is worked by, or the first of the refusals 2, 3, 4, 17, 5, 6 and 19 that applies.
pub fn check(fields: &Fields, options: Options) -> Result<Accepted, Refusal> {
    let instant = instant(&instant_fields(fields))?;
    let [.., latitude, longitude, body, _] = *fields;
    let latitudes = -LARGEST_LATITUDE..=LARGEST_LATITUDE;
    let longitudes = 1 - LARGEST_LONGITUDE..=LARGEST_LONGITUDE;
    if !latitudes.contains(&latitude) || !longitudes.contains(&longitude) {
        return Err(Refusal::PositionOutOfRange);
    }
    if !(1..=2).contains(&body) {
        return Err(Refusal::NoSuchBody);
    }
    let edition = Edition::from_number(options.edition)?;
    Ok(Accepted { instant, edition })
}

/// Works a shot to the components in the horizon's frame, or the refusals of `check`.
pub fn reduction(sine: &Sine, fields: &Fields, options: Options) -> Result<Reduction, Refusal> {
    let Accepted { instant, edition } = check(fields, options)?;
    let ephemeris = &instant.ephemeris;
    let mut arguments = Arguments::at(ephemeris, &FRAME_ARGUMENTS);
    let frame = frame(sine, &instant, &arguments);
    let body = if fields[9] == 1 {
        arguments.extend(ephemeris, edition.arguments());
        Body::Sun(sun(sine, edition, &arguments, ephemeris.millionths, &frame))
    } else {
        Body::Polaris(polaris(sine, ephemeris, &arguments, &frame))
    };
    let direction = body.direction();
    let components = components(sine, direction, frame.sidereal_time, fields[7], fields[8]);
    Ok(Reduction { instant, arguments, frame, body, components })
}

/// The shot: four angles, or the first refusal of `check`, then 7, 8, that applies.
pub fn shot(sine: &Sine, fields: &Fields, options: Options) -> Result<Angles, Refusal> {
    let reduction = reduction(sine, fields, options)?;
    let angles = reduction.horizon_angles(sine)?;
    let apparent_longitude = match reduction.body {
        Body::Sun(place) => place.apparent_longitude,
        Body::Polaris(_) => 0,
    };
    Ok(Angles {
        azimuth: angles.azimuth,
        zenith_distance: angles.zenith_distance,
        hour_angle: angles.hour_angle,
        apparent_longitude,
    })
}

#[cfg(test)]
mod tests {
    use super::*;
    use crate::calendar::LARGEST_DELTA_T;

    /// The Sun under the horizon on 29 February 2024, in the outside vectors of shots.
    const BELOW: Fields = [2024, 2, 29, 16, 54, 57_922, 0, -1_909_396, -6_162_022, 1, 0];

    /// Polaris above the horizon on 16 March 1976, in the outside vectors of shots.
    const POLARIS: Fields = [1976, 3, 16, 13, 34, 4_855, 801, 2_199_586, -4_998_479, 2, 107_385];

    /// The refusal of these fields with an edition.
    fn refusal(fields: &Fields, edition: i64) -> Option<Refusal> {
        shot(&Sine::new(), fields, Options { edition }).err()
    }

    /// An unknown edition, then a bad number in one field more at a time, the last test first: each
    /// refusal is given before those behind it.
    #[test]
    fn refusals_in_their_order() {
        let mut fields = BELOW;
        for known in [1, 2] {
            assert_eq!(refusal(&fields, known), Some(Refusal::BelowHorizon));
        }
        let unknown = 3;
        assert_eq!(refusal(&fields, unknown), Some(Refusal::NoSuchEdition));
        let spoiled = [
            (9, 3, Refusal::NoSuchBody),
            (8, 6_480_001, Refusal::PositionOutOfRange),
            (7, 3_204_001, Refusal::PositionOutOfRange),
            (10, 120_001, Refusal::DeltaTOutOfRange),
            (6, 901, Refusal::Dut1OutOfRange),
            (5, 60_000, Refusal::TimeNotAllowed),
            (2, 32, Refusal::NoSuchDate),
        ];
        for (place, number, expected) in spoiled {
            fields[place] = number;
            assert_eq!(refusal(&fields, unknown), Some(expected));
        }
    }

    #[test]
    fn delta_t_at_its_limits() {
        let with = |delta_t| {
            let mut fields = BELOW;
            fields[10] = delta_t;
            refusal(&fields, 1)
        };
        for accepted in [0, LARGEST_DELTA_T] {
            assert_eq!(with(accepted), Some(Refusal::BelowHorizon));
        }
        for bad in [i64::MIN, -1, LARGEST_DELTA_T + 1, i64::MAX] {
            assert_eq!(with(bad), Some(Refusal::DeltaTOutOfRange));
        }
    }

    /// Polaris is the same by both editions, and has no unknown one.
    #[test]
    fn polaris_by_any_known_edition() {
        let sine = Sine::new();
        let by = |edition| shot(&sine, &POLARIS, Options { edition });
        assert!(by(1).is_ok());
        assert_eq!(by(1), by(2));
        for unknown in [i64::MIN, -1, 0, 3, i64::MAX] {
            assert_eq!(by(unknown), Err(Refusal::NoSuchEdition));
        }
    }
}
