//! The calls on a card, as values and as lines of card.txt.

use crate::card::Card;
use crate::lines::{joined, number, MOST_DIGITS};
use crate::options::Options;
use crate::refusal::Refusal;
use crate::sine::Sine;
use std::fmt;

/// A call on a card; a reading has the bytes of the buffer that is lent to it.
#[derive(Clone, Debug, PartialEq, Eq)]
pub enum Call {
    Fresh,
    Hear(i64, i64),
    Read { field: i64, place: usize, buffer: Vec<u8> },
    Confirm(i64),
    Undo,
    Shot(Options),
}

impl Call {
    /// The call of a line's words, or refusal 14; a line's shot has no options.
    pub fn from_words(words: &[&[u8]]) -> Result<Self, Refusal> {
        let number = |word: &[u8]| number(word, MOST_DIGITS);
        Ok(match *words {
            [b"fresh"] => Call::Fresh,
            [b"hear", field, heard] => Call::Hear(number(field)?, number(heard)?),
            [b"read", field, place, buffer] => {
                let place = usize::try_from(number(place)?).map_err(|_| Refusal::MalformedLine)?;
                Call::Read { field: number(field)?, place, buffer: from_hex(buffer)? }
            }
            [b"confirm", field] => Call::Confirm(number(field)?),
            [b"undo"] => Call::Undo,
            [b"shot"] => Call::Shot(Options::default()),
            _ => return Err(Refusal::MalformedLine),
        })
    }

    /// What stands in the buffer that is lent to the call; only a reading is lent one.
    pub fn buffer(&self) -> &[u8] {
        match self {
            Call::Read { buffer, .. } => buffer,
            _ => &[],
        }
    }

    /// This program's answer to the call on a card, with a buffer for a reading.
    pub fn answer(&self, sine: &Sine, card: &mut Card, buffer: &mut [u8]) -> Vec<u64> {
        let values = match *self {
            Call::Fresh => {
                *card = Card::fresh();
                Ok(vec![])
            }
            Call::Hear(field, number) => card.hear(field, number).map(|()| vec![]),
            Call::Read { field, place, .. } => {
                card.read(field, place, buffer).map(|length| vec![length as u64])
            }
            Call::Confirm(field) => card.confirm(field).map(|()| vec![]),
            Call::Undo => card.undo().map(|()| vec![]),
            Call::Shot(options) => card.shot(sine, options).map(|angles| angles.words().to_vec()),
        };
        self.answer_words(values.map_err(|refusal| refusal.number() as u64))
    }

    /// The words of an answer: the refusal's number, 0 for none; behind it a reading's length or a
    /// shot's four angles, zeros when refused.
    pub fn answer_words(&self, values: Result<Vec<u64>, u64>) -> Vec<u64> {
        let count = match self {
            Call::Read { .. } => 1,
            Call::Shot(_) => 4,
            _ => 0,
        };
        match values {
            Ok(values) => [vec![0], values].concat(),
            Err(number) => [vec![number], vec![0; count]].concat(),
        }
    }
}

impl fmt::Display for Call {
    /// The line of card.txt; options that no line has stand behind it.
    fn fmt(&self, f: &mut fmt::Formatter<'_>) -> fmt::Result {
        match self {
            Call::Fresh => write!(f, "fresh"),
            Call::Hear(field, number) => write!(f, "hear {field} {number}"),
            Call::Read { field, place, buffer } => {
                write!(f, "read {field} {place} {}", to_hex(buffer))
            }
            Call::Confirm(field) => write!(f, "confirm {field}"),
            Call::Undo => write!(f, "undo"),
            Call::Shot(options) if *options == Options::default() => write!(f, "shot"),
            Call::Shot(options) => write!(f, "shot {}", joined(&options.numbers())),
        }
    }
}

/// The bytes of a buffer in hex; `-` is the empty one.
fn from_hex(hex: &[u8]) -> Result<Vec<u8>, Refusal> {
    if hex == b"-" {
        return Ok(Vec::new());
    }
    let digit = |byte: u8| char::from(byte).to_digit(16).ok_or(Refusal::MalformedLine);
    let byte = |pair: &[u8]| match *pair {
        [high, low] => Ok((16 * digit(high)? + digit(low)?) as u8),
        _ => Err(Refusal::MalformedLine),
    };
    hex.chunks(2).map(byte).collect()
}

/// A buffer in hex; `-` is the empty one.
pub fn to_hex(bytes: &[u8]) -> String {
    if bytes.is_empty() {
        return "-".to_string();
    }
    bytes.iter().map(|byte| format!("{byte:02x}")).collect()
}
