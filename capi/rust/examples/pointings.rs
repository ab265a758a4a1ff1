//! Works two sets of pointings from standard input, the eleven numbers of a shot and the horizontal
//! angle to a line, with an empty line between the sets. Prints the azimuth of the mark by each in
//! degrees, minutes and seconds, or the refusal, and at the end which set has the smaller spread.
//!
//! usage: pointings [EDITION]    the edition of the Sun's series, a number; else the short one

use fieldbook::{choose, pointing, Numbers, Options};
use std::env;
use std::error::Error;
use std::io;
use std::num::ParseIntError;
use std::ptr;

// In units of 0.0001 second of arc.
const DEGREE: u64 = 36_000_000;
const MINUTE: u64 = 600_000;
const SECOND: u64 = 10_000;

/// The default options, but with the edition that the command's first word names, if any.
fn options() -> Result<Options, ParseIntError> {
    let mut options = Options::default();
    if let Some(edition) = env::args().nth(1) {
        options.edition = edition.parse()?;
    }
    Ok(options)
}

/// Works the next set: prints each azimuth, and then an empty line.
fn work_set(
    lines: &mut io::Lines<io::StdinLock>,
    options: Options,
) -> Result<Vec<i64>, Box<dyn Error>> {
    let mut results = Vec::new();
    for line in lines {
        let line = line?;
        if line.is_empty() {
            break;
        }
        let numbers: Result<Vec<i64>, _> = line.split_whitespace().map(str::parse).collect();
        let numbers: [i64; 12] = numbers?.try_into().map_err(|_| "a line is twelve numbers")?;
        let [fields @ .., angle] = numbers;
        match pointing(&Numbers::from(fields), angle, options) {
            Ok(mark) => {
                let (degrees, minutes) = (mark / DEGREE, mark % DEGREE / MINUTE);
                let (seconds, units) = (mark % MINUTE / SECOND, mark % SECOND);
                println!("{degrees} {minutes:02} {seconds:02}.{units:04}");
                results.push(mark as i64);
            }
            Err(refusal) => println!("no {}", refusal as u64),
        }
    }
    println!();
    Ok(results)
}

/// The largest result less the smallest.
fn spread(results: &[i64]) -> u64 {
    let most = results.iter().max();
    let least = results.iter().min();
    most.zip(least).map_or(0, |(most, least)| most.abs_diff(*least))
}

fn main() -> Result<(), Box<dyn Error>> {
    let mut lines = io::stdin().lines();
    let options = options()?;
    let first = work_set(&mut lines, options)?;
    let second = work_set(&mut lines, options)?;
    if lines.next().is_some() {
        return Err("more than two sets".into());
    }
    match choose(&first, &second) {
        Ok(results) => {
            let set = if ptr::eq(results, second.as_slice()) { 2 } else { 1 };
            let least = spread(results);
            let (seconds, units) = (least / SECOND, least % SECOND);
            println!("set {set}, {} results, spread {seconds}.{units:04}", results.len());
        }
        Err(refusal) => println!("no {}", refusal as u64),
    }
    Ok(())
}
