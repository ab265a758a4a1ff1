//! The proved field book for Rust: a safe wrapper of the static library's functions. The units
//! are those of `capi/fieldbook.h`.

mod card;
mod editions;
mod ffi;

pub use card::{Card, Field};
pub use editions::{editions, Editions, Instant};
pub use ffi::Options;

/// The edition of the Sun's series without Mars, Jupiter and Saturn.
pub const SHORT_EDITION: i64 = 1;
/// The edition with them. `capi/fieldbook.h` says how near either comes to the sky.
pub const FULL_EDITION: i64 = 2;

/// The eleven numbers of a shot; any numbers may be given.
#[derive(Clone, Copy, Debug, PartialEq, Eq)]
pub struct Numbers {
    pub year: i64,
    pub month: i64,
    pub day: i64,
    pub hour: i64,
    pub minute: i64,
    /// Of the minute.
    pub millisecond: i64,
    /// UT1 - UTC, in milliseconds.
    pub dut1: i64,
    /// In 0.1 seconds of arc, north positive.
    pub latitude: i64,
    /// In 0.1 seconds of arc, east positive.
    pub longitude: i64,
    /// 1 the Sun, 2 Polaris.
    pub body: i64,
    /// ET - UT1, in milliseconds; 0 counts both times as one.
    pub delta_t: i64,
}

/// An answered shot, in units of 0.0001 second of arc.
#[derive(Clone, Copy, Debug, PartialEq, Eq)]
pub struct ShotAngles {
    /// From north, clockwise.
    pub azimuth: u64,
    /// From the zenith, without refraction.
    pub zenith_distance: u64,
    /// From the meridian, westward.
    pub hour_angle: u64,
    /// The Sun's apparent longitude s; 0 for Polaris.
    pub longitude: u64,
}

/// Why there is no answer, in the order of the tests; its number is the discriminant.
#[derive(Clone, Copy, Debug, PartialEq, Eq)]
pub enum Refusal {
    /// Of a shot from a card alone.
    NotConfirmed = 1,
    NoDate = 2,
    NoTime = 3,
    NoDut1 = 4,
    NoDeltaT = 17,
    NoPosition = 5,
    NoBody = 6,
    NoEdition = 19,
    BelowHorizon = 7,
    NearZenith = 8,
    NoList = 16,
    NoAngle = 15,
    /// This one and those below are of the card's other calls.
    NoField = 9,
    EmptyField = 10,
    NoRoom = 11,
    NotRead = 12,
    TooLarge = 13,
    NothingToUndo = 18,
}

impl Default for Options {
    fn default() -> Self {
        Options { edition: SHORT_EDITION }
    }
}

impl From<[i64; 11]> for Numbers {
    /// The fields in the card's order.
    fn from(fields: [i64; 11]) -> Self {
        let [year, month, day, hour, minute, millisecond, dut1, latitude, longitude, body, delta_t] =
            fields;
        Numbers {
            year,
            month,
            day,
            hour,
            minute,
            millisecond,
            dut1,
            latitude,
            longitude,
            body,
            delta_t,
        }
    }
}

impl Numbers {
    /// The fields in the card's order.
    fn fields(&self) -> [i64; 11] {
        let Numbers {
            year,
            month,
            day,
            hour,
            minute,
            millisecond,
            dut1,
            latitude,
            longitude,
            body,
            delta_t,
        } = *self;
        [year, month, day, hour, minute, millisecond, dut1, latitude, longitude, body, delta_t]
    }
}

/// Ends with the refusal that an answer's number names, 0 for none. Words that are no card would be
/// refused by 100: none come here, since the proved calls alone write those of a `Card`.
fn accepted(number: u64) -> Result<(), Refusal> {
    Err(match number {
        0 => return Ok(()),
        1 => Refusal::NotConfirmed,
        2 => Refusal::NoDate,
        3 => Refusal::NoTime,
        4 => Refusal::NoDut1,
        17 => Refusal::NoDeltaT,
        5 => Refusal::NoPosition,
        6 => Refusal::NoBody,
        19 => Refusal::NoEdition,
        7 => Refusal::BelowHorizon,
        8 => Refusal::NearZenith,
        16 => Refusal::NoList,
        15 => Refusal::NoAngle,
        9 => Refusal::NoField,
        10 => Refusal::EmptyField,
        11 => Refusal::NoRoom,
        12 => Refusal::NotRead,
        13 => Refusal::TooLarge,
        18 => Refusal::NothingToUndo,
        _ => unreachable!("no call of this interface is refused by {number}"),
    })
}

/// The words of a shot's answer: its angles, or why there are none.
fn answered(words: [u64; 5]) -> Result<ShotAngles, Refusal> {
    let [refusal, azimuth, zenith_distance, hour_angle, longitude] = words;
    accepted(refusal)?;
    Ok(ShotAngles { azimuth, zenith_distance, hour_angle, longitude })
}

/// The same of a shot that is answered by value.
fn angles(a: ffi::ShotAnswer) -> Result<ShotAngles, Refusal> {
    answered([a.refusal, a.azimuth, a.zenith_distance, a.hour_angle, a.longitude])
}

/// The shot: its angles, or why there are none.
pub fn shot(numbers: &Numbers, options: Options) -> Result<ShotAngles, Refusal> {
    angles(ffi::shot(numbers.fields(), options))
}

/// Many shots, each with its own angles or refusal, in the order of their numbers, with one set of
/// options for all.
pub fn shots(numbers: &[Numbers], options: Options) -> Vec<Result<ShotAngles, Refusal>> {
    let rows: Vec<i64> = numbers.iter().flat_map(Numbers::fields).collect();
    let mut words = vec![0; 5 * numbers.len()];
    ffi::shots(&rows, &mut words, options);
    let answers = words.chunks_exact(5);
    answers.map(|words| answered(words.try_into().expect("five words"))).collect()
}

/// The pointing: the azimuth of a mark from north, clockwise, in units of 0.0001 second of arc, or
/// why there is none. The horizontal angle is clockwise from the mark to the body, in the same
/// units; any number may be given.
pub fn pointing(numbers: &Numbers, angle: i64, options: Options) -> Result<u64, Refusal> {
    let answer = ffi::pointing(numbers.fields(), angle, options);
    accepted(answer.refusal)?;
    Ok(answer.mark)
}

/// The choice: of two lists of results, in units of 0.0001 second of arc, the one of smaller
/// spread, itself and whole, the first on a tie; or why there is none. Any lists may be given.
pub fn choose<'a>(first: &'a [i64], second: &'a [i64]) -> Result<&'a [i64], Refusal> {
    let answer = ffi::choice(first, second);
    accepted(answer.refusal)?;
    Ok(if answer.list == 2 { second } else { first })
}
