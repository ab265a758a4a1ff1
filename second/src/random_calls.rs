//! Seeded random histories of calls on a card, by themselves and as lines of card.txt.

use crate::call::Call;
use crate::digits::LONGEST;
use crate::options::Options;
use crate::random::Random;
use crate::random_lines::Lines;
use crate::session::{command, Command};
use crate::sine::Sine;
use std::str::FromStr;

/// The most calls of a history.
pub const CALLS: i64 = 1_000;
/// Room for any text, in bytes.
const ROOM: i64 = LONGEST as i64;
/// The field of DUT1.
const DUT1: i64 = 7;
/// Of so many calls one is an undo: so few that most shots still find every field confirmed.
const UNDO: i64 = 80;
/// Of so many calls one is the one before once more.
const AGAIN: i64 = 40;

/// What a card is started by, as card.txt has it.
#[derive(Clone, Copy, Debug, PartialEq, Eq)]
pub enum Start {
    Fresh,
    Old,
}

impl Start {
    /// The word of its line.
    pub fn word(self) -> &'static str {
        match self {
            Start::Fresh => "fresh",
            Start::Old => "old",
        }
    }
}

impl FromStr for Start {
    type Err = String;

    fn from_str(word: &str) -> Result<Self, String> {
        let starts = [Start::Fresh, Start::Old];
        let found = starts.into_iter().find(|start| start.word() == word);
        found.ok_or_else(|| format!("{word}: neither fresh nor old"))
    }
}

/// The lines of one history after the other, `count` in all. Each begins with the start; its
/// calls are those of a random session. From the old start on, an eighth of the histories hears
/// nothing for DUT1, so that their shots take the number that stands there.
pub fn random_calls(sine: &Sine, start: Start, seed: u64, count: u64) -> Vec<u8> {
    let mut random = Random::new(seed);
    let mut lines: Vec<String> = Vec::new();
    while (lines.len() as u64) < count {
        let left = count - lines.len() as u64 - 1;
        let calls = left.min(random.between(0, CALLS) as u64);
        let dut1_kept = start == Start::Old && random.once_in(8);
        lines.push(start.word().to_string());
        let calls = history(&mut random, sine, dut1_kept, calls);
        lines.extend(calls.iter().map(Call::to_string));
    }
    lines.iter().flat_map(|line| format!("{line}\n").into_bytes()).collect()
}

/// The calls of a history, without hearings for DUT1 where what stands there is kept. An undo comes
/// behind any call; a hearing made again changes nothing, and an undo made again is refused.
pub fn history(random: &mut Random, sine: &Sine, dut1_kept: bool, count: u64) -> Vec<Call> {
    let mut session = Lines::new(random.bits(), sine);
    let mut calls: Vec<Call> = Vec::new();
    while (calls.len() as u64) < count {
        if random.once_in(UNDO) {
            calls.push(Call::Undo);
            continue;
        }
        if random.once_in(AGAIN) {
            calls.extend(calls.last().cloned());
            continue;
        }
        match command(&session.next_line()) {
            Ok(Command::Hear(DUT1, _)) if dut1_kept => {}
            Ok(command) => calls.push(call(random, command)),
            Err(_) => {}
        }
    }
    calls
}

/// A command of a session as a call; a reading gets a buffer and a place.
fn call(random: &mut Random, command: Command) -> Call {
    match command {
        Command::Hear(field, number) => Call::Hear(field, number),
        Command::Confirm(field) => Call::Confirm(field),
        Command::Shot => Call::Shot(Options::default()),
        Command::Read(field) => {
            let (length, place) = buffer_and_place(random);
            let buffer = (0..length).map(|_| random.bits() as u8).collect();
            Call::Read { field, place: place as usize, buffer }
        }
    }
}

/// The length of a buffer and a place: mostly with room for any text, since a shot wants eleven
/// readings, else with any or none, or far beyond the end.
fn buffer_and_place(random: &mut Random) -> (i64, i64) {
    if !random.once_in(30) {
        let length = random.between(ROOM, 32);
        return (length, random.between(0, length - ROOM));
    }
    let length = random.between(0, 32);
    let beyond = random.choose(&[length, length + 1, 999_999_999_999_999_999]);
    (length, if random.once_in(4) { beyond } else { random.between(0, length) })
}
