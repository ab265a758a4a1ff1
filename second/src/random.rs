//! Seeded random shots and pointings with their options, to compare the proved book with this
//! program.

use crate::angle::angle;
use crate::calendar::LARGEST_DELTA_T;
use crate::edition::{FULL, SHORT};
use crate::exact::{reduce, square_root, QUADRANT, SCALE, TURN};
use crate::fieldbook::{reduction, shot, Fields, Reduction, LARGEST_LATITUDE, LARGEST_LONGITUDE};
use crate::options::Options;
use crate::refusal::Refusal;
use crate::rotation::Direction;
use crate::sine::Sine;

/// The generator splitmix64.
pub struct Random {
    state: u64,
}

impl Random {
    /// A generator; equal seeds give equal numbers.
    pub fn new(seed: u64) -> Self {
        Random { state: seed }
    }

    /// Any 64 bits.
    pub fn bits(&mut self) -> u64 {
        self.state = self.state.wrapping_add(0x9e37_79b9_7f4a_7c15);
        let mut z = self.state;
        z = (z ^ (z >> 30)).wrapping_mul(0xbf58_476d_1ce4_e5b9);
        z = (z ^ (z >> 27)).wrapping_mul(0x94d0_49bb_1331_11eb);
        z ^ (z >> 31)
    }

    /// A number from `low` to `high`, both included.
    pub fn between(&mut self, low: i64, high: i64) -> i64 {
        let count = (high - low + 1) as u128;
        low + ((u128::from(self.bits()) * count) >> 64) as i64
    }

    /// One of a list.
    pub fn choose<T: Copy>(&mut self, list: &[T]) -> T {
        list[self.between(0, list.len() as i64 - 1) as usize]
    }

    /// True once in `count` times.
    pub fn once_in(&mut self, count: i64) -> bool {
        self.between(1, count) == 1
    }
}

/// The accepted range of each field, the first three as a range of dates that exist.
const RANGES: [(i64, i64); 11] = [
    (1976, 2049),
    (1, 12),
    (1, 28),
    (0, 23),
    (0, 59),
    (0, 59_999),
    (-900, 900),
    (-LARGEST_LATITUDE, LARGEST_LATITUDE),
    (1 - LARGEST_LONGITUDE, LARGEST_LONGITUDE),
    (1, 2),
    (0, LARGEST_DELTA_T),
];

/// Numbers that no field accepts or that lie at the ends of their types.
pub const EXTREMES: [i64; 14] = [
    i64::MIN,
    i64::MIN + 1,
    i64::MAX,
    i64::MAX - 1,
    -999_999_999_999_999_999,
    999_999_999_999_999_999,
    i32::MIN as i64,
    i32::MAX as i64,
    u32::MAX as i64,
    -10_000_000,
    10_000_000,
    9_999_999,
    -1,
    0,
];

/// Numbers of no edition; some have the low bits of one.
const NO_EDITIONS: [i64; 14] = [
    0,
    3,
    -1,
    -2,
    256 + 1,
    256 + 2,
    (1 << 32) + 1,
    (1 << 32) + 2,
    -999_999_999_999_999_999,
    999_999_999_999_999_999,
    i64::MIN,
    i64::MIN + 1,
    i64::MIN + 2,
    i64::MAX,
];

/// Dates around every rule of the calendar.
const EDGE_DATES: [[i64; 3]; 28] = [
    [1975, 12, 31],
    [1976, 1, 1],
    [1976, 2, 29],
    [1976, 2, 30],
    [1976, 12, 31],
    [1977, 2, 28],
    [1977, 2, 29],
    [1999, 12, 31],
    [2000, 1, 1],
    [2000, 2, 28],
    [2000, 2, 29],
    [2000, 2, 30],
    [2000, 3, 1],
    [2001, 2, 29],
    [2048, 2, 29],
    [2049, 2, 29],
    [2049, 12, 31],
    [2049, 12, 32],
    [2050, 1, 1],
    [2010, 4, 30],
    [2010, 4, 31],
    [2010, 6, 31],
    [2010, 9, 31],
    [2010, 11, 31],
    [2010, 0, 15],
    [2010, 13, 15],
    [2010, 7, 0],
    [1900, 2, 29],
];

/// Options: the two editions about as often, and one in eight that is unknown.
pub fn random_options(random: &mut Random) -> Options {
    let edition = match random.between(0, 15) {
        0 => random.choose(&NO_EDITIONS),
        1 => any_size(random),
        _ => random.choose(&[SHORT, FULL]),
    };
    Options { edition }
}

/// A shot and its options.
pub fn shot_numbers(random: &mut Random, sine: &Sine) -> (Fields, Options) {
    let options = random_options(random);
    (shot_fields(random, sine, options), options)
}

/// The numbers of a shot with these options, of one of the kinds below, chosen at random.
pub fn shot_fields(random: &mut Random, sine: &Sine, options: Options) -> Fields {
    match random.between(0, 10) {
        0..=2 => accepted(random),
        3 => edges(random),
        4 => dates(random),
        5 => leap_seconds(random),
        6 => polar(random),
        7 => near_zenith(random, sine, options),
        8 => near_horizon(random, sine, options),
        9 => delta_t_edges(random),
        _ => any_numbers(random),
    }
}

/// A shot, a horizontal angle, which is any, at a limit, out of range, or one unit or less from the
/// azimuth of the body, and the shot's options.
pub fn pointing_numbers(random: &mut Random, sine: &Sine) -> (Fields, i64, Options) {
    let (fields, options) = shot_numbers(random, sine);
    let angle = match random.between(0, 5) {
        0 => random.choose(&[-1, 0, 1, TURN - 1, TURN, TURN + 1]),
        1 => random.choose(&EXTREMES),
        2 => any_size(random),
        3 => shot(sine, &fields, options).unwrap_or_default().azimuth + random.between(-1, 1),
        _ => random.between(0, TURN - 1),
    };
    (fields, angle, options)
}

/// A number of any size, each number of bits as likely as another.
pub fn any_size(random: &mut Random) -> i64 {
    random.bits() as i64 >> random.between(0, 63)
}

/// Uniform in every field: refusals 2 to 6 and 17 don't apply.
pub fn accepted(random: &mut Random) -> Fields {
    let mut fields = RANGES.map(|(low, high)| random.between(low, high));
    let longest = match fields[1] {
        2 => 28 + i64::from(fields[0] % 4 == 0),
        4 | 6 | 9 | 11 => 30,
        _ => 31,
    };
    fields[2] = random.between(1, longest);
    fields
}

/// Uniform, but one to three fields, fields 7 to 11 most often, at an edge.
pub fn edges(random: &mut Random) -> Fields {
    let mut fields = accepted(random);
    for _ in 0..random.between(1, 3) {
        let first = random.choose(&[0, 6]);
        let place = random.between(first, 10) as usize;
        fields[place] = edge_number(random, place);
    }
    fields
}

/// A number at a limit of a field, beside it, or far outside; `place` is 0 for field 1.
pub fn edge_number(random: &mut Random, place: usize) -> i64 {
    let (low, high) = RANGES[place];
    match random.between(0, 3) {
        0 => random.choose(&EXTREMES),
        1 => low + random.between(-1, 1),
        _ => high + random.between(-1, 1),
    }
}

/// ΔT at an edge, most often with one of fields 6 to 10 at one too: refusal 17 stands
/// between 4 and 5 in the order of tests.
pub fn delta_t_edges(random: &mut Random) -> Fields {
    let mut fields = accepted(random);
    for place in [10, random.between(5, 10) as usize] {
        fields[place] = edge_number(random, place);
    }
    fields
}

/// Dates around the calendar's rules, or any day of 0 .. 32.
pub fn dates(random: &mut Random) -> Fields {
    let mut fields = accepted(random);
    if random.once_in(2) {
        fields[..3].copy_from_slice(&random.choose(&EDGE_DATES));
    } else {
        fields[0] = random.between(1975, 2050);
        fields[1] = random.between(0, 13);
        fields[2] = random.between(0, 32);
    }
    fields
}

/// The last minute of a day, most often one that may have a leap second.
pub fn leap_seconds(random: &mut Random) -> Fields {
    let mut fields = accepted(random);
    let days = [[6, 30], [12, 31], [6, 29], [12, 30], [7, 31], [1, 1]];
    let latest = if random.once_in(4) { 5 } else { 1 };
    let day = days[random.between(0, latest) as usize];
    fields[1..3].copy_from_slice(&day);
    fields[3] = if random.once_in(8) { random.between(22, 24) } else { 23 };
    fields[4] = if random.once_in(8) { random.between(58, 60) } else { 59 };
    fields[5] = match random.between(0, 2) {
        0 => random.choose(&[59_999, 60_000, 60_999, 61_000]),
        _ => random.between(59_900, 61_100),
    };
    fields
}

/// Latitudes near the poles and the limits.
fn polar(random: &mut Random) -> Fields {
    let mut fields = accepted(random);
    let distance = if random.once_in(2) { 100 } else { 36_000 };
    let latitude = LARGEST_LATITUDE - random.between(-1, distance);
    fields[7] = if random.once_in(2) { latitude } else { -latitude };
    fields
}

/// Eleven numbers, some from the ends of the types or of any size.
pub fn any_numbers(random: &mut Random) -> Fields {
    let mut fields = accepted(random);
    for field in &mut fields {
        match random.between(0, 5) {
            0 => *field = random.choose(&EXTREMES),
            1 => *field = any_size(random),
            _ => {}
        }
    }
    fields
}

/// Accepted numbers worked by the shot's options, or by the defaults where these are refused.
fn worked(sine: &Sine, fields: &Fields, options: Options) -> Result<Reduction, Refusal> {
    let by = |options| reduction(sine, fields, options);
    by(options).or_else(|_| by(Options::default()))
}

/// Right ascension and declination of a direction.
fn place(sine: &Sine, [x, y, z]: Direction) -> (i64, i64) {
    let equatorial = square_root((x * x + y * y) as u64) as i64;
    let declination = angle(sine, equatorial, z);
    (angle(sine, x, y), if declination < 2 * QUADRANT { declination } else { declination - TURN })
}

/// Puts the observer at a latitude and longitude in units, within the fields' limits.
fn observe(fields: &mut Fields, latitude: i64, longitude: i64) {
    let longitude = reduce(longitude);
    let longitude = if longitude > TURN / 2 { longitude - TURN } else { longitude };
    fields[7] = (latitude / 1_000).clamp(-LARGEST_LATITUDE, LARGEST_LATITUDE);
    fields[8] = (longitude / 1_000).clamp(1 - LARGEST_LONGITUDE, LARGEST_LONGITUDE);
}

/// The body near the zenith or nadir, often 0.01 from it, where refusal 8 ends.
fn near_zenith(random: &mut Random, sine: &Sine, options: Options) -> Fields {
    let mut fields = accepted(random);
    let Ok(shot) = worked(sine, &fields, options) else {
        return fields;
    };
    let (right_ascension, declination) = place(sine, shot.body.direction());
    // 0.01 in radians, in units.
    let edge = 20_626_481;
    let distance = match random.between(0, 2) {
        0 => random.between(0, 2 * edge),
        1 => edge + random.between(-2_000, 2_000),
        _ => edge + random.between(-200_000, 200_000),
    };
    let bearing = random.between(0, TURN - 1);
    let northward = distance * sine.cos(bearing) / SCALE;
    let cos = sine.cos(declination).max(SCALE / 100);
    let eastward = distance * sine.sin(bearing) / cos;
    let longitude = right_ascension - shot.frame.sidereal_time + eastward;
    if random.once_in(8) {
        observe(&mut fields, -declination - northward, longitude + 2 * QUADRANT);
    } else {
        observe(&mut fields, declination + northward, longitude);
    }
    fields
}

/// The body within some tenths of a second, or some minutes, of the horizon.
fn near_horizon(random: &mut Random, sine: &Sine, options: Options) -> Fields {
    let mut fields = accepted(random);
    let Ok(shot) = worked(sine, &fields, options) else {
        return fields;
    };
    let (right_ascension, declination) = place(sine, shot.body.direction());
    // Where the body rises at all, |latitude| is at most 90 degrees less |declination|.
    let widest = QUADRANT - declination.abs();
    let latitude = random.between(-widest, widest);
    let product = -i128::from(sine.sin(latitude)) * i128::from(sine.sin(declination));
    let below = i128::from(sine.cos(latitude)) * i128::from(sine.cos(declination));
    let scale = i128::from(SCALE);
    let cosine = (product * scale / below.max(1)).clamp(-scale, scale) as i64;
    let sin = square_root((SCALE * SCALE - cosine * cosine) as u64) as i64;
    let hour_angle = angle(sine, cosine, if random.once_in(2) { sin } else { -sin });
    let spread = random.choose(&[0, 1_000, 10_000, 10_000_000]);
    let latitude = latitude + random.between(-spread, spread);
    let longitude = right_ascension + hour_angle - shot.frame.sidereal_time;
    observe(&mut fields, latitude, longitude + random.between(-spread, spread));
    fields
}
