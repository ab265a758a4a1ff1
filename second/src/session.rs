//! The session: lines in, lines out. Document 01, "One session, whole". Its shot has no options:
//! document 02, request 7.

use crate::card::Card;
use crate::digits::LONGEST;
use crate::fieldbook::Angles;
use crate::lines::{number, words};
use crate::options::Options;
use crate::refusal::Refusal;
use crate::sine::Sine;
use std::io::{self, BufRead, Write};

/// The most digits of a session's field or number.
pub const MOST_DIGITS: usize = 9;

/// A line of the session.
#[derive(Clone, Copy, Debug, PartialEq, Eq)]
pub enum Command {
    Hear(i64, i64),
    Read(i64),
    Confirm(i64),
    Shot,
}

/// The command of a line without its newline, or refusal 14.
pub fn command(line: &[u8]) -> Result<Command, Refusal> {
    let words = words(line);
    let number = |i: usize| number(words[i], MOST_DIGITS);
    match (words[0], words.len()) {
        (b"H", 3) => Ok(Command::Hear(number(1)?, number(2)?)),
        (b"R", 2) => Ok(Command::Read(number(1)?)),
        (b"C", 2) => Ok(Command::Confirm(number(1)?)),
        (b"S", 1) => Ok(Command::Shot),
        _ => Err(Refusal::MalformedLine),
    }
}

/// The answer to one line, without a newline.
pub fn answer(sine: &Sine, card: &mut Card, line: &[u8]) -> Vec<u8> {
    accepted(sine, card, line)
        .unwrap_or_else(|refusal| format!("no {}", refusal.number()).into_bytes())
}

/// The answer to a line that isn't refused, or its refusal.
fn accepted(sine: &Sine, card: &mut Card, line: &[u8]) -> Result<Vec<u8>, Refusal> {
    match command(line)? {
        Command::Hear(field, number) => card.hear(field, number).map(|()| b"ok".to_vec()),
        Command::Confirm(field) => card.confirm(field).map(|()| b"ok".to_vec()),
        Command::Read(field) => {
            let mut buffer = [0; LONGEST];
            let length = card.read(field, 0, &mut buffer)?;
            Ok(buffer[..length].to_vec())
        }
        Command::Shot => {
            let Angles { azimuth, zenith_distance, .. } = card.shot(sine, Options::default())?;
            Ok(format!("az {azimuth} zd {zenith_distance}").into_bytes())
        }
    }
}

/// A whole session from a fresh card: one output line for each input line.
pub fn run(sine: &Sine, mut input: impl BufRead, mut output: impl Write) -> io::Result<()> {
    let mut card = Card::fresh();
    let mut line = Vec::new();
    while input.read_until(b'\n', &mut line)? > 0 {
        let content = line.strip_suffix(b"\n").unwrap_or(&line);
        let mut text = answer(sine, &mut card, content);
        text.push(b'\n');
        output.write_all(&text)?;
        line.clear();
    }
    output.flush()
}

#[cfg(test)]
mod tests {
    use super::*;

    /// Document 01, "One session, whole": the table.
    #[test]
    fn session_of_document_01() {
        let mut output = Vec::new();
        let input = b"H 5 50\nC 5\nR 5\nH 5 15\nC 5\nR 5\nC 5\nS";
        run(&Sine::new(), &input[..], &mut output).unwrap();
        assert_eq!(output, b"ok\nno 12\n5 0\nok\nno 12\n1 5\nok\nno 1\n");
    }

    #[test]
    fn malformed_lines_are_refused() {
        let sine = Sine::new();
        let lines: [&[u8]; 16] = [
            b"",
            b" ",
            b"S ",
            b" S",
            b"s",
            b"S\r",
            b"R",
            b"R ",
            b"R  5",
            b"R\t5",
            b"R 5\0",
            b"R +5",
            b"R --5",
            b"R 0000000005",
            b"H 5 1 2",
            b"H 5 \xff",
        ];
        for line in lines {
            assert_eq!(answer(&sine, &mut Card::fresh(), line), b"no 14");
        }
        assert_eq!(answer(&sine, &mut Card::fresh(), b"R 000000007"), b"no 10");
        assert_eq!(answer(&sine, &mut Card::fresh(), b"H 00 -0"), b"no 9");
    }
}
