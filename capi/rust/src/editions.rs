//! Both editions of the Sun's series at an instant, and what the short one leaves out. The rules are
//! those of `capi/fieldbook.h`.

use crate::{accepted, ffi, Refusal};

/// The eight numbers of an instant, which are those of a shot without position and body; any numbers
/// may be given.
#[derive(Clone, Copy, Debug, PartialEq, Eq)]
pub struct Instant {
    pub year: i64,
    pub month: i64,
    pub day: i64,
    pub hour: i64,
    pub minute: i64,
    /// Of the minute.
    pub millisecond: i64,
    /// UT1 - UTC, in milliseconds.
    pub dut1: i64,
    /// ET - UT1, in milliseconds; 0 counts both times as one.
    pub delta_t: i64,
}

/// The Sun by both editions, in units of 0.0001 second of arc.
#[derive(Clone, Copy, Debug, PartialEq, Eq)]
pub struct Editions {
    /// The Sun's apparent longitude s by the short edition.
    pub short: u64,
    /// The same by the full one.
    pub full: u64,
    /// How far the two are apart, the short way round.
    pub apart: u64,
    /// What the terms that the short edition leaves out can come to at this instant: their
    /// amplitudes, each without its sign, added up. `apart` is never more, which is proved.
    pub bound: u64,
}

impl From<[i64; 8]> for Instant {
    /// The numbers in the order of a shot's.
    fn from(numbers: [i64; 8]) -> Self {
        let [year, month, day, hour, minute, millisecond, dut1, delta_t] = numbers;
        Instant { year, month, day, hour, minute, millisecond, dut1, delta_t }
    }
}

impl Instant {
    /// The numbers in the order of a shot's.
    fn numbers(&self) -> [i64; 8] {
        let Instant { year, month, day, hour, minute, millisecond, dut1, delta_t } = *self;
        [year, month, day, hour, minute, millisecond, dut1, delta_t]
    }
}

/// What the short edition of the Sun's series costs at an instant: both longitudes, how far they are
/// apart and the bound on that, or why there are none.
///
/// ```
/// use fieldbook::{editions, Instant, Refusal};
///
/// let instant = Instant::from([2020, 3, 22, 6, 30, 0, 0, 0]);
/// let e = editions(&instant)?;
/// assert_eq!((e.short, e.full), (75_308_836, 75_466_135));
/// assert_eq!((e.apart, e.bound), (157_299, 227_763)); // 15.7 and 22.8 seconds of arc
/// assert_eq!(editions(&Instant { month: 13, ..instant }), Err(Refusal::NoDate));
/// # Ok::<(), Refusal>(())
/// ```
pub fn editions(instant: &Instant) -> Result<Editions, Refusal> {
    let a = ffi::editions(instant.numbers());
    accepted(a.refusal)?;
    Ok(Editions { short: a.short_edition, full: a.full_edition, apart: a.apart, bound: a.bound })
}
