//! The card: the eleven numbers of a shot, each heard, read out and confirmed before the shot takes
//! it. The rules of each call are those of `capi/fieldbook.h`.

use crate::{accepted, angles, ffi, Options, Refusal, ShotAngles};

/// How many words a card has.
const WORDS: usize = 25;

/// A card. A clone of it is another card.
///
/// ```
/// use fieldbook::{Card, Field, Refusal};
///
/// let mut card = Card::fresh();
/// let mut text = [0; 15];
/// card.hear(5, 50)?;
/// let length = card.read(5, &mut text, 0)?;
/// assert_eq!(text[..length], *b"5 0");
/// card.confirm(5)?;
/// assert_eq!(card.field(5), Some(Field::Confirmed(50)));
/// card.undo()?;
/// assert_eq!(card, Card::fresh());
/// # Ok::<(), Refusal>(())
/// ```
///
/// Its words are private, so safe Rust can neither make a card of words nor write to those of one,
/// and what the header promises of confirmed numbers holds of every card.
///
/// ```compile_fail,E0451
/// let card = fieldbook::Card { words: [0; 25] };
/// ```
///
/// ```compile_fail,E0616
/// let mut card = fieldbook::Card::fresh();
/// card.words[0] = 3;
/// ```
#[derive(Clone, Debug, PartialEq, Eq)]
pub struct Card {
    words: [i64; WORDS],
}

/// A field of a card: its state and, unless it is empty, its number.
#[derive(Clone, Copy, Debug, PartialEq, Eq)]
pub enum Field {
    Empty,
    Heard(i64),
    Read(i64),
    Confirmed(i64),
}

impl Card {
    /// A fresh card: every field is empty, and there is nothing to undo.
    pub fn fresh() -> Self {
        let mut words = [0; WORDS];
        ffi::card_fresh(&mut words);
        Card { words }
    }

    /// Hears a number for a field, 1 to 11, whatever stood there.
    pub fn hear(&mut self, field: i64, number: i64) -> Result<(), Refusal> {
        accepted(ffi::card_hear(&mut self.words, field, number))
    }

    /// Reads a field out: writes its text into the buffer from a place on, for which 15 bytes are
    /// room enough, makes a heard field read, and returns the text's length.
    pub fn read(&mut self, field: i64, buffer: &mut [u8], place: usize) -> Result<usize, Refusal> {
        let answer = ffi::card_read(&mut self.words, field, buffer, place);
        accepted(answer.refusal)?;
        Ok(answer.length as usize)
    }

    /// Confirms a field that is read.
    pub fn confirm(&mut self, field: i64) -> Result<(), Refusal> {
        accepted(ffi::card_confirm(&mut self.words, field))
    }

    /// Undoes the latest accepted hearing: puts its field back as it was before.
    pub fn undo(&mut self) -> Result<(), Refusal> {
        accepted(ffi::card_undo(&mut self.words))
    }

    /// The shot with the card's numbers, all of which must be confirmed: its angles, or why there
    /// are none.
    pub fn shot(&self, options: Options) -> Result<ShotAngles, Refusal> {
        angles(ffi::card_shot(&self.words, options))
    }

    /// What stands in a field, 1 to 11; none where there is no such field.
    pub fn field(&self, field: i64) -> Option<Field> {
        if !(1..=11).contains(&field) {
            return None;
        }
        let state = 2 * (field as usize - 1);
        let number = self.words[state + 1];
        Some(match self.words[state] {
            0 => Field::Empty,
            1 => Field::Heard(number),
            2 => Field::Read(number),
            3 => Field::Confirmed(number),
            other => unreachable!("no field of a card is in the state {other}"),
        })
    }
}
