//! Dates, the day number D, the two times of an instant with N and q of each.
//! Document 01, "The card", "Refusal numbers" and "Time"; document 02, request 3.

use crate::exact::{floor, MILLION};
use crate::refusal::Refusal;

/// C, a Julian century of 36,525 days, in milliseconds.
pub const CENTURY: i64 = 3_155_760_000_000;
/// A day in milliseconds.
pub const DAY: i64 = 86_400_000;
/// Half a day in milliseconds: the epoch is 1900 January 0.5.
pub const HALF_DAY: i64 = 43_200_000;
/// The largest ΔT, which is ET - UT1, in milliseconds; the smallest is 0.
pub const LARGEST_DELTA_T: i64 = 120_000;
/// Days of a common year before each month.
const DAYS_BEFORE: [i64; 12] = [0, 31, 59, 90, 120, 151, 181, 212, 243, 273, 304, 334];

/// A time as the theory takes it.
#[derive(Clone, Copy, Debug, PartialEq, Eq)]
pub struct Epoch {
    /// N, milliseconds since 1900 January 0.5.
    pub milliseconds: i64,
    /// q, millionths of a Julian century since then.
    pub millionths: i64,
}

impl Epoch {
    /// The epoch of N, with its q.
    fn new(milliseconds: i64) -> Self {
        Epoch { milliseconds, millionths: floor(MILLION * milliseconds, CENTURY) }
    }
}

/// An accepted instant by its two times.
#[derive(Clone, Copy, Debug, PartialEq, Eq)]
pub struct Instant {
    /// By UT1: sidereal time goes by it, and nothing else.
    pub universal: Epoch,
    /// By ET, a number that is ΔT larger: the arguments, the amplitudes and Polaris go by it.
    pub ephemeris: Epoch,
}

/// Whether a year of the Gregorian calendar has a leap day.
fn is_leap(year: i64) -> bool {
    year % 4 == 0 && (year % 100 != 0 || year % 400 == 0)
}

/// The length of a month of 1 .. 12.
fn days_of_month(year: i64, month: i64) -> i64 {
    match month {
        2 => 28 + i64::from(is_leap(year)),
        4 | 6 | 9 | 11 => 30,
        _ => 31,
    }
}

/// Whether the date exists and lies from 1976-01-01 to 2049-12-31.
fn is_date(year: i64, month: i64, day: i64) -> bool {
    (1976..=2049).contains(&year)
        && (1..=12).contains(&month)
        && (1..=days_of_month(year, month)).contains(&day)
}

/// Whether hour, minute and millisecond are allowed on a date that exists.
fn is_time(month: i64, day: i64, hour: i64, minute: i64, millisecond: i64) -> bool {
    let leap_second_day = (month, day) == (6, 30) || (month, day) == (12, 31);
    let longest = if leap_second_day && (hour, minute) == (23, 59) { 60_999 } else { 59_999 };
    (0..=23).contains(&hour) && (0..=59).contains(&minute) && (0..=longest).contains(&millisecond)
}

/// Leap days in the years 1 .. year of the Gregorian calendar.
fn leap_days_through(year: i64) -> i64 {
    year / 4 - year / 100 + year / 400
}

/// D: days from 1899-12-31 to a date that exists.
pub fn day_number(year: i64, month: i64, day: i64) -> i64 {
    let leap_days = leap_days_through(year - 1) - leap_days_through(1899);
    let leap_day = i64::from(month > 2 && is_leap(year));
    365 * (year - 1900) + leap_days + DAYS_BEFORE[month as usize - 1] + leap_day + day
}

/// The instant of fields 1 to 7 (year, month, day, hour, minute, millisecond of the
/// minute, DUT1 in milliseconds) and 11 (ΔT in milliseconds), or the first of the
/// refusals 2, 3, 4 and 17 that applies.
pub fn instant(fields: &[i64; 8]) -> Result<Instant, Refusal> {
    let [year, month, day, hour, minute, millisecond, dut1, delta_t] = *fields;
    if !is_date(year, month, day) {
        return Err(Refusal::NoSuchDate);
    }
    if !is_time(month, day, hour, minute, millisecond) {
        return Err(Refusal::TimeNotAllowed);
    }
    if !(-900..=900).contains(&dut1) {
        return Err(Refusal::Dut1OutOfRange);
    }
    if !(0..=LARGEST_DELTA_T).contains(&delta_t) {
        return Err(Refusal::DeltaTOutOfRange);
    }
    let of_day = (hour * 60 + minute) * 60_000 + millisecond;
    let milliseconds = DAY * day_number(year, month, day) - HALF_DAY + of_day + dut1;
    Ok(Instant {
        universal: Epoch::new(milliseconds),
        ephemeris: Epoch::new(milliseconds + delta_t),
    })
}

#[cfg(test)]
mod tests {
    use super::*;

    /// Document 01, "Numbers to prove together".
    #[test]
    fn numbers_of_document_01() {
        assert_eq!(day_number(1976, 1, 1), 27_759);
        assert_eq!(day_number(2000, 1, 1), 36_525);
        assert_eq!(day_number(2049, 12, 31), 54_787);
        let epoch_2000 = Epoch { milliseconds: 3_155_716_800_000, millionths: 999_986 };
        let instant_2000 = instant(&[2000, 1, 1, 0, 0, 0, 0, 0]);
        assert_eq!(instant_2000, Ok(Instant { universal: epoch_2000, ephemeris: epoch_2000 }));
        assert!(instant(&[2000, 2, 29, 0, 0, 0, 0, 0]).is_ok());
        assert_eq!(instant(&[2001, 2, 29, 0, 0, 0, 0, 0]), Err(Refusal::NoSuchDate));
    }

    #[test]
    fn leap_second_runs_into_the_next_day() {
        let leap = instant(&[1999, 12, 31, 23, 59, 60_500, 0, 64_000]).unwrap();
        assert_eq!(Ok(leap), instant(&[2000, 1, 1, 0, 0, 500, 0, 64_000]));
        let late = instant(&[1999, 12, 30, 23, 59, 60_000, 0, 64_000]);
        assert_eq!(late, Err(Refusal::TimeNotAllowed));
    }

    /// Each time has a q of its own. The half day to the end of the century is 13 millionths
    /// of it and 2,175,120 ms, so that q grows at 0:36:15.120.
    #[test]
    fn two_times_have_two_q() {
        let epoch = |milliseconds, millionths| Epoch { milliseconds, millionths };
        let fields = [2000, 1, 1, 0, 36, 15_119, 0, 0];
        let universal = epoch(3_155_718_975_119, 999_986);
        assert_eq!(instant(&fields), Ok(Instant { universal, ephemeris: universal }));
        let ephemeris = epoch(3_155_718_975_120, 999_987);
        let later = [2000, 1, 1, 0, 36, 15_119, 0, 1];
        assert_eq!(instant(&later), Ok(Instant { universal, ephemeris }));
        let latest = [2000, 1, 1, 0, 36, 15_719, -600, LARGEST_DELTA_T];
        let ephemeris = epoch(3_155_719_095_119, 999_987);
        assert_eq!(instant(&latest), Ok(Instant { universal, ephemeris }));
    }

    #[test]
    fn delta_t_is_tested_behind_dut1() {
        let with = |dut1, delta_t| instant(&[2016, 12, 31, 23, 59, 60_999, dut1, delta_t]);
        assert!(with(900, 0).is_ok() && with(-900, LARGEST_DELTA_T).is_ok());
        for bad in [-1, LARGEST_DELTA_T + 1, i64::MIN, i64::MAX] {
            assert_eq!(with(900, bad), Err(Refusal::DeltaTOutOfRange));
            assert_eq!(with(901, bad), Err(Refusal::Dut1OutOfRange));
        }
    }
}
