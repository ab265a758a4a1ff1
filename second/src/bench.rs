//! The time of a shot, by the short edition.

use crate::fieldbook::{shot, Fields};
use crate::options::Options;
use crate::random::{accepted, Random};
use crate::sine::Sine;
use std::fmt;
use std::hint::black_box;
use std::time::Instant;

/// The seed of the timed shots.
const SEED: u64 = 1976;
/// How many different shots are timed over and over.
const POOL: usize = 4_096;
/// Shots timed together.
const BATCH: u64 = 1_000;

/// Nanoseconds per shot.
#[derive(Clone, Copy, Debug)]
pub struct Timing {
    /// In the fastest batch: where others use the machine, the number to compare.
    pub fastest: f64,
    /// Over all batches.
    pub mean: f64,
}

impl fmt::Display for Timing {
    fn fmt(&self, f: &mut fmt::Formatter<'_>) -> fmt::Result {
        let Timing { fastest, mean } = self;
        write!(f, "{fastest:.1} ns per shot in the fastest batch, {mean:.1} in the mean")
    }
}

/// The timed shots: answered ones, the Sun and Polaris in turn.
pub fn answered_shots(sine: &Sine) -> Vec<Fields> {
    let mut random = Random::new(SEED);
    let mut shots = Vec::with_capacity(POOL);
    while shots.len() < POOL {
        let mut fields = accepted(&mut random);
        fields[9] = 1 + shots.len() as i64 % 2;
        if shot(sine, &fields, Options::default()).is_ok() {
            shots.push(fields);
        }
    }
    shots
}

/// Times `count` shots, rounded up to whole batches.
pub fn time_shots(sine: &Sine, shots: &[Fields], count: u64) -> Timing {
    let mut rest = shots.iter().cycle();
    let batches = count.div_ceil(BATCH).max(1);
    let mut times = Vec::new();
    for _ in 0..batches {
        let start = Instant::now();
        for fields in rest.by_ref().take(BATCH as usize) {
            let _ = black_box(shot(sine, black_box(fields), Options::default()));
        }
        times.push(start.elapsed().as_nanos() as f64 / BATCH as f64);
    }
    let fastest = times.iter().copied().fold(f64::INFINITY, f64::min);
    Timing { fastest, mean: times.iter().sum::<f64>() / batches as f64 }
}
