//! Works the shots of standard input, eleven numbers to a line, and prints the angles or the
//! refusal of each.
//!
//! usage: shots [EDITION]    the edition of the Sun's series, a number; else the short one

use fieldbook::{shot, Numbers, Options};
use std::env;
use std::error::Error;
use std::io;
use std::num::ParseIntError;

/// The default options, but with the edition that the command's first word names, if any.
fn options() -> Result<Options, ParseIntError> {
    let mut options = Options::default();
    if let Some(edition) = env::args().nth(1) {
        options.edition = edition.parse()?;
    }
    Ok(options)
}

fn main() -> Result<(), Box<dyn Error>> {
    let options = options()?;
    for line in io::stdin().lines() {
        let numbers: Result<Vec<i64>, _> = line?.split_whitespace().map(str::parse).collect();
        let fields: [i64; 11] = numbers?.try_into().map_err(|_| "a line is eleven numbers")?;
        match shot(&Numbers::from(fields), options) {
            Ok(a) => println!(
                "az {} zd {} ha {} s {}",
                a.azimuth, a.zenith_distance, a.hour_angle, a.longitude
            ),
            Err(refusal) => println!("no {}", refusal as u64),
        }
    }
    Ok(())
}
