//! Comparison of another program, or of a library's functions of plain numbers, with this
//! one on random input, and of a library with the outside vectors.

use crate::card::Card;
use crate::counts::{answered_or, Counts, Outcome};
use crate::lines::joined;
use crate::question::{
    answer_text, asked_by_vector, BatchQuestion, Editions, LibraryAnswer, Question,
};
use crate::random::Random;
use crate::random_lines::Lines;
use crate::replay::{batch_line, card_line, refused};
use crate::sine::Sine;

/// The most lines of a short session, and of a run of calls on cards.
const SHORT: u64 = 2_000;
/// Of so many lines of a batch one has any count of numbers, up to the most.
const ANY_COUNT: i64 = 200;
const MOST_NUMBERS: i64 = 15;

/// A way to ask a library, and its name.
pub type Way<'a, Q> = (&'a str, &'a dyn Fn(&Q) -> LibraryAnswer<Q>);

/// Random questions as lines of numbers.
pub fn random_batch<Q: BatchQuestion>(sine: &Sine, seed: u64, count: u64) -> Vec<u8> {
    let mut random = Random::new(seed);
    let mut text = Vec::new();
    for _ in 0..count {
        let question = Q::random(&mut random, sine);
        text.extend(joined(&batch_numbers(&mut random, &question)).bytes());
        text.push(b'\n');
    }
    text
}

/// The numbers of a question's line, every second time without the options at the end that have
/// their defaults; rarely too few or too many.
fn batch_numbers<Q: BatchQuestion>(random: &mut Random, question: &Q) -> Vec<i64> {
    let mut numbers = question.numbers();
    for default in Q::defaults().into_iter().rev() {
        if numbers.pop_if(|last| *last == default && random.once_in(2)).is_none() {
            break;
        }
    }
    if random.once_in(ANY_COUNT) {
        numbers.resize(random.between(0, MOST_NUMBERS) as usize, 1);
    }
    numbers
}

/// A line for each line.
fn answers(input: &[u8], mut answer: impl FnMut(&[u8]) -> String) -> Vec<u8> {
    let mut answers = Vec::new();
    for line in input.split_inclusive(|&byte| byte == b'\n') {
        let line = line.strip_suffix(b"\n").unwrap_or(line);
        answers.extend(answer(line).bytes());
        answers.push(b'\n');
    }
    answers
}

/// This program's answers to the lines of a batch.
pub fn batch_answers<Q: BatchQuestion>(sine: &Sine, input: &[u8]) -> Vec<u8> {
    answers(input, |line| batch_line::<Q>(sine, line))
}

/// This program's answers to calls on a card.
pub fn call_answers(sine: &Sine, input: &[u8]) -> Vec<u8> {
    let mut card = Card::fresh();
    answers(input, |line| card_line(sine, &mut card, line).unwrap_or_else(refused))
}

/// The outcomes that a batch reaches: 14 too, where a number has more digits than a line's may or
/// the numbers are too few or too many.
pub fn outcomes_of_a_batch<Q: BatchQuestion>() -> Vec<Outcome> {
    [Q::outcomes(), vec![Outcome::Refused(14)]].concat()
}

/// The seed and the number of lines of each of several random sessions, `count` lines in
/// all. The first has half of them. The others are short, since the fields of a card soon
/// fill, and an empty field is met only near the start.
pub fn random_sessions(seed: u64, count: u64) -> Vec<(u64, u64)> {
    let mut random = Random::new(seed);
    let mut sessions = vec![(seed, count.div_ceil(2))];
    let mut rest = count / 2;
    while rest > 0 {
        let lines = rest.min(random.between(1, SHORT as i64) as u64);
        sessions.push((random.bits(), lines));
        rest -= lines;
    }
    sessions
}

/// The seed and the number of lines of each run of random calls, `count` lines in all.
pub fn random_runs(seed: u64, count: u64) -> Vec<(u64, u64)> {
    let mut random = Random::new(seed);
    let runs = (0..count).step_by(SHORT as usize);
    runs.map(|done| (random.bits(), SHORT.min(count - done))).collect()
}

/// The lines of one random session; with an odd seed the last one has no newline, unless it
/// is empty.
pub fn random_lines(sine: &Sine, seed: u64, count: u64) -> Vec<u8> {
    let mut lines = Lines::new(seed, sine);
    let mut text = Vec::new();
    for _ in 0..count {
        text.extend(lines.next_line());
        text.push(b'\n');
    }
    if seed % 2 == 1 && text.len() > 1 && !text.ends_with(b"\n\n") {
        text.pop();
    }
    text
}

/// The outcomes that sessions reach; their buffer always holds the text, so 11 is none, nor is 19,
/// since no line names an edition.
pub fn outcomes_of_sessions() -> Vec<Outcome> {
    answered_or((1..=10).chain([12, 13, 14, 17]))
}

/// The outcomes that calls on a card by lines reach; these name no edition either.
pub fn outcomes_of_calls() -> Vec<Outcome> {
    [answered_or((1..=13).chain([17, 18])), vec![Outcome::Undone]].concat()
}

/// An error where two outputs that must be equal part.
pub fn equal_outputs(expected: &[u8], given: &[u8]) -> Result<(), String> {
    let mut given_lines = given.split_inclusive(|&byte| byte == b'\n');
    for (i, line) in expected.split_inclusive(|&byte| byte == b'\n').enumerate() {
        let other = given_lines.next().unwrap_or_default();
        if line != other {
            let [line, other] = [line, other].map(String::from_utf8_lossy);
            return Err(format!("line {}: {line:?} expected, {other:?} given", i + 1));
        }
    }
    match given_lines.next() {
        Some(_) => Err("the other output has more lines".to_string()),
        None => Ok(()),
    }
}

/// An error where one of the ways to a library doesn't lead to the expected answer.
fn all_answer<Q: Question>(ways: &[Way<Q>], question: &Q, expected: &str) -> Result<(), String> {
    for (name, ask) in ways {
        let given = answer_text(&ask(question));
        if given != expected {
            let line = joined(&question.numbers());
            return Err(format!("{name}, {line}: {expected} expected, {given} given"));
        }
    }
    Ok(())
}

/// Compares a library, asked in each of some ways, with this program on random questions; the
/// error tells the first that is answered otherwise.
pub fn compare_library<Q: Question>(
    sine: &Sine,
    (seed, count): (u64, u64),
    ways: &[Way<Q>],
) -> Result<Counts, String> {
    let mut random = Random::new(seed);
    let mut counts = Counts::default();
    for _ in 0..count {
        let question = Q::random(&mut random, sine);
        let answer = Q::as_library(question.answer(sine));
        all_answer(ways, &question, &answer_text(&answer))?;
        counts.add(question.outcome(&answer), 1);
    }
    Ok(counts)
}

/// Compares a library, asked in each of some ways, with vectors, lines `numbers = answer`, and
/// returns how many there are; the error tells the first that is answered otherwise.
pub fn compare_vectors<Q: Question>(file: &str, ways: &[Way<Q>]) -> Result<usize, String> {
    each_vector(file, |given, expected| all_answer(ways, &question_of(given)?, expected))
}

/// The same with this program's answers to the vectors' questions, where these are older than the
/// rules.
pub fn compare_asked<Q: Question>(
    sine: &Sine,
    file: &str,
    ways: &[Way<Q>],
) -> Result<usize, String> {
    each_vector(file, |given, _| {
        let question: Q = question_of(given)?;
        let answer = Q::as_library(question.answer(sine));
        all_answer(ways, &question, &answer_text(&answer))
    })
}

/// Compares both editions by a library with vectors of longitudes, lines `instant edition = s ..`:
/// the longitude by that edition is s, and the two are no farther apart than their bound.
pub fn compare_longitudes(file: &str, ways: &[Way<Editions>]) -> Result<usize, String> {
    each_vector(file, |given, expected| {
        let (instant, edition) = given.rsplit_once(' ').unwrap_or_default();
        let question = question_of(instant)?;
        for (name, ask) in ways {
            let (refusal, values) = ask(&question);
            let [short, full, apart, bound] = values;
            let s = match edition {
                "1" => short,
                "2" => full,
                _ => return Err(format!("{given}: no such edition")),
            };
            let is_equal = expected.split(' ').next() == Some(s.to_string().as_str());
            if refusal != 0 || !is_equal || apart > bound {
                let answer = answer_text(&(refusal, values));
                return Err(format!("{name}, {given}: s of {expected} expected, {answer} given"));
            }
        }
        Ok(())
    })
}

/// The question of a vector's left side.
fn question_of<Q: Question>(given: &str) -> Result<Q, String> {
    asked_by_vector(given.as_bytes()).map_err(|_| format!("{given}: malformed"))
}

/// Takes the two sides of each of the vectors, and returns how many there are.
fn each_vector(
    file: &str,
    mut take: impl FnMut(&str, &str) -> Result<(), String>,
) -> Result<usize, String> {
    let mut taken = 0;
    for line in file.lines().filter(|line| !line.starts_with('#')) {
        let (given, expected) =
            line.split_once(" = ").ok_or_else(|| format!("{line}: no answer"))?;
        take(given, expected)?;
        taken += 1;
    }
    Ok(taken)
}
