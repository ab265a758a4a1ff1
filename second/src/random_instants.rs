//! Seeded random instants, to compare what the proved book says of both editions of the Sun's
//! series with this program.

use crate::calendar::{day_number, instant, CENTURY, DAY, HALF_DAY, LARGEST_DELTA_T};
use crate::exact::{MILLION, TURN};
use crate::fieldbook::instant_fields;
use crate::random::{accepted, any_numbers, dates, delta_t_edges, edges, leap_seconds, Random};
use crate::short_series::cost;
use crate::sine::Sine;

/// A tropical year, in milliseconds.
const YEAR: i64 = 31_556_925_975;
/// So long the Sun takes for more than the two editions are ever apart, in milliseconds.
const NEAR_EQUINOX: i64 = 400_000;
/// More than N and N with ΔT are ever apart, in milliseconds.
const NEAR_STEP: i64 = 150_000;
/// The amplitude of 1.882 - 0.016 T changes by a unit where q passes a multiple of this; of the
/// multiples that accepted instants pass, the first and the last.
const STEP: i64 = MILLION / 160;
const STEPS: (i64, i64) = (122, 239);

/// An instant as fields 1 to 7 and 11: of the kinds that shots have, or where a number of the
/// answer starts anew or steps.
pub fn instant_numbers(random: &mut Random, sine: &Sine) -> [i64; 8] {
    let fields = match random.between(0, 9) {
        0 => return near_equinox(random, sine),
        1 => return near_step(random),
        2..=3 => accepted(random),
        4 => edges(random),
        5 => dates(random),
        6 => leap_seconds(random),
        7 => delta_t_edges(random),
        _ => any_numbers(random),
    };
    instant_fields(&fields)
}

/// Some minutes from the equinox of March, where the longitude starts anew at 0: often it does so
/// by one edition and not yet by the other.
fn near_equinox(random: &mut Random, sine: &Sine) -> [i64; 8] {
    let mut fields = instant_fields(&accepted(random));
    fields[1..3].copy_from_slice(&[3, 20]);
    for _ in 0..2 {
        let short = cost(sine, &fields).expect("an accepted instant").short;
        let ahead = if short > TURN / 2 { short - TURN } else { short };
        fields = later(&fields, -ahead * YEAR / TURN);
    }
    later(&fields, random.between(-NEAR_EQUINOX, NEAR_EQUINOX))
}

/// Some seconds from where an amplitude steps: often N is before it and N with ΔT behind.
fn near_step(random: &mut Random) -> [i64; 8] {
    let q = STEP * random.between(STEPS.0, STEPS.1) + 1;
    let ephemeris = q * (CENTURY / MILLION) + random.between(-NEAR_STEP, NEAR_STEP);
    fields_at(ephemeris, random.between(-900, 900), random.between(0, LARGEST_DELTA_T))
}

/// The instant some milliseconds later, with the same DUT1 and ΔT.
fn later(fields: &[i64; 8], milliseconds: i64) -> [i64; 8] {
    let ephemeris = instant(fields).expect("an accepted instant").ephemeris.milliseconds;
    fields_at(ephemeris + milliseconds, fields[6], fields[7])
}

/// The instant of which N with ΔT is `ephemeris`, as fields 1 to 7 and 11.
fn fields_at(ephemeris: i64, dut1: i64, delta_t: i64) -> [i64; 8] {
    let since_midnight = ephemeris - delta_t - dut1 + HALF_DAY;
    let [year, month, day] = date(since_midnight.div_euclid(DAY));
    let of_day = since_midnight.rem_euclid(DAY);
    let (minutes, millisecond) = (of_day / 60_000, of_day % 60_000);
    [year, month, day, minutes / 60, minutes % 60, millisecond, dut1, delta_t]
}

/// The date of a day number D of 1976 to 2049.
fn date(number: i64) -> [i64; 3] {
    let begun = |year, month| day_number(year, month, 1) <= number;
    let year = (1976..=2049).rfind(|&year| begun(year, 1)).expect("a year of the book");
    let month = (1..=12).rfind(|&month| begun(year, month)).expect("a month");
    [year, month, number - day_number(year, month, 1) + 1]
}

#[cfg(test)]
mod tests {
    use super::*;

    /// Every field of an accepted instant comes back.
    #[test]
    fn fields_of_an_instant() {
        let mut random = Random::new(5);
        for _ in 0..1_000 {
            let fields = instant_fields(&accepted(&mut random));
            assert_eq!(later(&fields, 0), fields);
        }
        assert_eq!(later(&[1999, 12, 31, 23, 59, 59_999, 0, 0], 1), [2000, 1, 1, 0, 0, 0, 0, 0]);
        assert_eq!(later(&[2000, 3, 1, 0, 0, 0, 0, 7], -1), [2000, 2, 29, 23, 59, 59_999, 0, 7]);
    }

    /// Near the equinox the longitudes are often on both sides of 0.
    #[test]
    fn longitudes_on_both_sides_of_the_equinox() {
        let (sine, mut random) = (Sine::new(), Random::new(6));
        let mut sides = 0;
        for _ in 0..1_000 {
            let found = cost(&sine, &near_equinox(&mut random, &sine)).expect("an instant");
            sides += u64::from((found.short - found.full).abs() > TURN / 2);
        }
        assert!(sides > 100, "{sides}");
    }

    /// Near a step the amplitudes left out are often others at N than at N with ΔT.
    #[test]
    fn steps_between_the_two_times() {
        let (sine, mut random) = (Sine::new(), Random::new(7));
        let mut steps = 0;
        for _ in 0..1_000 {
            let mut fields = near_step(&mut random);
            let with = cost(&sine, &fields).expect("an instant").bound;
            fields[7] = 0;
            let without = cost(&sine, &fields).expect("an instant").bound;
            steps += u64::from(with != without);
        }
        assert!(steps > 100, "{steps}");
    }
}
