//! Many shots in one call of a library, with the same options: document 02, requests 5 and 7. What
//! they answer is what each shot answers by itself.

use crate::counts::Counts;
use crate::lines::joined;
use crate::options::Options;
use crate::question::{Question, Shot};
use crate::random::{random_options, shot_fields, Random};
use crate::sine::Sine;

/// The numbers of a row, and the words of its answer: the refusal's number and four angles.
const NUMBERS: usize = 11;
const WORDS: usize = 5;

/// A library's call: rows of numbers, room for words and options -> how many rows it answered.
pub type ManyShots<'a> = &'a dyn Fn(&[i64], &mut [u64], Options) -> u64;

/// One call: its options, its shots, their numbers with what is left over behind the last row, and
/// what stands where the answers go.
struct Call {
    options: Options,
    shots: Vec<Shot>,
    rows: Vec<i64>,
    words: Vec<u64>,
}

impl Call {
    /// A call of 0 to 60 rows; every third has numbers left over, every third too little room or
    /// too much.
    fn random(random: &mut Random, sine: &Sine) -> Self {
        let options = random_options(random);
        let count = random.between(0, 60);
        let shots: Vec<Shot> = (0..count)
            .map(|_| Shot { fields: shot_fields(random, sine, options), options })
            .collect();
        let mut rows: Vec<i64> = shots.iter().flat_map(|shot| shot.fields).collect();
        let mut room = WORDS * shots.len();
        match random.between(0, 2) {
            0 => {
                let over = random.between(1, NUMBERS as i64 - 1);
                rows.extend((0..over).map(|_| random.bits() as i64));
            }
            1 => room = random.between(0, (room + 2 * WORDS) as i64) as usize,
            _ => {}
        }
        let words = (0..room).map(|_| random.bits()).collect();
        Call { options, shots, rows, words }
    }
}

/// Compares a library's many shots with this program's shots on random calls, until `count` rows
/// are answered. What no answer takes must stay as it was.
pub fn compare_many_shots(
    sine: &Sine,
    (seed, count): (u64, u64),
    library: ManyShots,
) -> Result<Counts, String> {
    let mut random = Random::new(seed);
    let mut counts = Counts::default();
    while counts.total() < count {
        let Call { options, shots, rows, words } = Call::random(&mut random, sine);
        let mut expected = words.clone();
        for (words, shot) in expected.chunks_exact_mut(WORDS).zip(&shots) {
            let answer = Shot::as_library(shot.answer(sine));
            words[0] = answer.0;
            words[1..].copy_from_slice(&answer.1);
            counts.add(shot.outcome(&answer), 1);
        }
        let mut given = words;
        let answered = library(&rows, &mut given, options);
        let rows_expected = shots.len().min(given.len() / WORDS) as u64;
        if answered != rows_expected || given != expected {
            let line = joined(&rows);
            return Err(format!("{options:?}, {line}: {expected:?} expected, {given:?} given"));
        }
    }
    Ok(counts)
}
