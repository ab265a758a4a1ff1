//! How often a comparison met each kind of answer.

use std::collections::BTreeMap;
use std::fmt;
use std::iter;

/// How often a comparison must reach each outcome that belongs to it.
pub const LEAST: u64 = 100;

/// What an answer counts as.
#[derive(Clone, Copy, Debug, PartialEq, Eq, PartialOrd, Ord)]
pub enum Outcome {
    /// A shot, a pointing or both editions with their angles.
    Answered,
    /// A choice of the first list, whose spread is smaller.
    First,
    /// A choice of the second list.
    Second,
    /// A choice of the first list, the spreads being equal.
    Tie,
    /// An undo of a hearing.
    Undone,
    /// By the refusal's number.
    Refused(u64),
    /// One that is none of these: a call on a card that is accepted, or the card's start.
    Other,
}

impl Outcome {
    /// The outcome of a line of the output of `shots`, `pointings`, `editions` or `session`.
    pub fn of_line(line: &str) -> Self {
        let number = line.strip_prefix("no ").and_then(|text| text.parse().ok());
        match (number, first_word(line)) {
            (Some(number), _) => Outcome::Refused(number),
            (None, "az" | "mark" | "short") => Outcome::Answered,
            (None, _) => Outcome::Other,
        }
    }

    /// The outcome of a call on a card by its answer, in which the refusal's number stands first.
    pub fn of_call(call: &str, answer: &str) -> Self {
        match (first_word(answer).parse().ok(), first_word(call)) {
            (Some(0), "shot") => Outcome::Answered,
            (Some(0), "undo") => Outcome::Undone,
            (Some(0) | None, _) => Outcome::Other,
            (Some(number), _) => Outcome::Refused(number),
        }
    }
}

/// The first word of a line.
fn first_word(line: &str) -> &str {
    line.split(' ').next().unwrap_or_default()
}

impl fmt::Display for Outcome {
    fn fmt(&self, f: &mut fmt::Formatter<'_>) -> fmt::Result {
        match self {
            Outcome::Answered => write!(f, "answered"),
            Outcome::First => write!(f, "first"),
            Outcome::Second => write!(f, "second"),
            Outcome::Tie => write!(f, "tie"),
            Outcome::Undone => write!(f, "undone"),
            Outcome::Refused(number) => write!(f, "no {number}"),
            Outcome::Other => write!(f, "others"),
        }
    }
}

/// Answers and these refusals.
pub fn answered_or(refusals: impl IntoIterator<Item = u64>) -> Vec<Outcome> {
    iter::once(Outcome::Answered).chain(refusals.into_iter().map(Outcome::Refused)).collect()
}

/// How often each outcome was met.
#[derive(Clone, Debug, Default, PartialEq, Eq)]
pub struct Counts {
    counts: BTreeMap<Outcome, u64>,
}

impl FromIterator<Outcome> for Counts {
    fn from_iter<I: IntoIterator<Item = Outcome>>(outcomes: I) -> Self {
        let mut counts = Counts::default();
        outcomes.into_iter().for_each(|outcome| counts.add(outcome, 1));
        counts
    }
}

impl Counts {
    /// The counts of an output of `shots`, `pointings`, `editions` or `session`.
    pub fn of_lines(output: &[u8]) -> Self {
        String::from_utf8_lossy(output).lines().map(Outcome::of_line).collect()
    }

    /// The counts of calls on cards and the answers to them.
    pub fn of_calls(calls: &[u8], answers: &[u8]) -> Self {
        let (calls, answers) = (String::from_utf8_lossy(calls), String::from_utf8_lossy(answers));
        let pairs = calls.lines().zip(answers.lines());
        pairs.map(|(call, answer)| Outcome::of_call(call, answer)).collect()
    }

    /// Counts an outcome as met some times more.
    pub fn add(&mut self, outcome: Outcome, times: u64) {
        *self.counts.entry(outcome).or_default() += times;
    }

    /// Adds the counts of another run.
    pub fn add_all(&mut self, other: &Counts) {
        for (&outcome, &times) in &other.counts {
            self.add(outcome, times);
        }
    }

    /// How often an outcome was met.
    pub fn of(&self, outcome: Outcome) -> u64 {
        self.counts.get(&outcome).copied().unwrap_or_default()
    }

    /// All that was counted.
    pub fn total(&self) -> u64 {
        self.counts.values().sum()
    }

    /// An error when an outcome of the list was met fewer than `least` times.
    pub fn all_reached(&self, expected: &[Outcome], least: u64) -> Result<(), String> {
        match expected.iter().find(|&&outcome| self.of(outcome) < least) {
            Some(&rare) => {
                Err(format!("`{rare}` was reached {} times, fewer than {least}", self.of(rare)))
            }
            None => Ok(()),
        }
    }
}

impl fmt::Display for Counts {
    /// The outcomes that were met, in one line.
    fn fmt(&self, f: &mut fmt::Formatter<'_>) -> fmt::Result {
        let counts: Vec<String> =
            self.counts.iter().map(|(outcome, times)| format!("{outcome} {times}")).collect();
        write!(f, "{}", counts.join(", "))
    }
}
