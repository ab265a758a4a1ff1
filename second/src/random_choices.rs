//! Seeded random pairs of lists, to choose between.

use crate::exact::TURN;
use crate::random::{any_size, Random, EXTREMES};
use crate::spread::LONGEST_LIST;

/// The largest result.
const LAST: i64 = TURN - 1;
/// How far from the smallest or the largest of its list a result most often lies.
const NEAR: i64 = 100;
/// The length of the longest lists.
const THOUSANDS: i64 = 5_000;

/// Two lists: any, or with spreads that are equal or differ by one unit; now and then with a
/// result of any size in either.
pub fn lists(random: &mut Random) -> (Vec<i64>, Vec<i64>) {
    let widest = random.choose(&[0, 1, 10, 10_000, 10_000_000, LAST]);
    let spread = random.between(0, widest);
    let other = match random.between(0, 3) {
        0 => random.between(0, LAST),
        _ => (spread + random.between(-1, 1)).clamp(0, LAST),
    };
    let (mut first, mut second) = (list(random, spread), list(random, other));
    for results in [&mut first, &mut second] {
        if random.once_in(5) {
            spoil(random, results);
        }
    }
    (first, second)
}

/// A list of this spread, if it has two results or more; anywhere, or at an end of the turn.
fn list(random: &mut Random, spread: i64) -> Vec<i64> {
    let smallest = match random.between(0, 3) {
        0 => 0,
        1 => LAST - spread,
        _ => random.between(0, LAST - spread),
    };
    let largest = smallest + spread;
    let count = length(random);
    let mut results: Vec<i64> = (0..count)
        .map(|_| match random.between(0, 2) {
            0 => smallest + random.between(0, spread.min(NEAR)),
            1 => largest - random.between(0, spread.min(NEAR)),
            _ => random.between(smallest, largest),
        })
        .collect();
    if count > 1 {
        let place = random.between(0, count - 1);
        let other = (place + random.between(1, count - 1)) % count;
        results[place as usize] = smallest;
        results[other as usize] = largest;
    }
    results
}

/// How many results: most often a few or any number that is allowed, around the limits, and
/// rarely some thousands.
fn length(random: &mut Random) -> i64 {
    let longest = LONGEST_LIST as i64;
    match random.between(0, 9) {
        0 | 1 => random.choose(&[0, 1, longest, longest + 1]),
        2..=4 => random.between(1, 3),
        _ if random.once_in(500) => random.between(longest + 1, THOUSANDS),
        _ => random.between(1, longest),
    }
}

/// Puts a number beside the limits, or of any size, at any place, often the last.
fn spoil(random: &mut Random, results: &mut [i64]) {
    let number = match random.between(0, 2) {
        0 => random.choose(&[-1, 0, LAST, TURN]),
        1 => random.choose(&EXTREMES),
        _ => any_size(random),
    };
    let place = match results.len() as i64 - 1 {
        last if random.once_in(3) => last,
        last => random.between(0, last.max(0)),
    };
    if let Some(result) = results.get_mut(place as usize) {
        *result = number;
    }
}
