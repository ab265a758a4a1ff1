//! Prints what the short edition of the Sun's series costs in a year: for the first of each month, at
//! noon UTC, the Sun's apparent longitude by both editions, how far they are apart, and the bound.
//!
//! usage: editions [YEAR]    1976 to 2049; else 2020

use fieldbook::{editions, Instant};
use std::env;
use std::error::Error;

/// In units of 0.0001 second of arc.
const SECOND: u64 = 10_000;

/// ET - UT1 in milliseconds, with TAI - UTC at 37 s and DUT1 at 0, for every year. In 1976 it was
/// 22 s less: that is 0.9 seconds of arc of both longitudes, but of their distance a unit or two.
const DELTA_T: i64 = 69_184;

const HEADING: &str = "\
The Sun's apparent longitude at noon UTC, DUT1 0, delta T 69.184 s, in seconds of arc.
Bound: the amplitudes that the short series leaves out, added up; apart is never more.
";

/// An angle in seconds of arc.
fn seconds(angle: u64) -> String {
    format!("{}.{:04}", angle / SECOND, angle % SECOND)
}

/// Prints a line, each column right-aligned.
fn print_columns(date: &str, [short, full, apart, bound]: [&str; 4]) {
    println!("{date:10}{short:>14}{full:>14}{apart:>9}{bound:>9}");
}

fn print_month(year: i64, month: i64) {
    let date = format!("{year}-{month:02}-01");
    let noon = Instant {
        year,
        month,
        day: 1,
        hour: 12,
        minute: 0,
        millisecond: 0,
        dut1: 0,
        delta_t: DELTA_T,
    };
    match editions(&noon) {
        Ok(e) => {
            let [short, full, apart, bound] = [e.short, e.full, e.apart, e.bound].map(seconds);
            print_columns(&date, [&short, &full, &apart, &bound]);
        }
        Err(refusal) => println!("{date} no {}", refusal as u64),
    }
}

fn main() -> Result<(), Box<dyn Error>> {
    let year = env::args().nth(1).map_or(Ok(2020), |year| year.parse())?;
    println!("{HEADING}");
    print_columns("date", ["short", "full", "apart", "bound"]);
    for month in 1..=12 {
        print_month(year, month);
    }
    Ok(())
}
