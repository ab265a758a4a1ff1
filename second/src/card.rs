//! The card: what was heard, read out and confirmed of each field. Document 01, "The card";
//! document 02, requests 3, 4, 6 and 7.

use crate::digits::text;
#[cfg(test)]
use crate::digits::LONGEST;
use crate::fieldbook::{shot, Angles, Fields};
use crate::options::Options;
use crate::refusal::Refusal;
use crate::sine::Sine;
use std::mem;

/// The largest magnitude of a heard number.
pub const LARGEST_HEARD: u64 = 9_999_999;
/// How many words a card has.
pub const WORDS: usize = 25;

/// A field of the card.
#[derive(Clone, Copy, Debug, PartialEq, Eq)]
pub enum Field {
    Empty,
    Heard(i64),
    Read(i64),
    Confirmed(i64),
}

impl Field {
    /// The code of the state, and the number, 0 where there is none.
    fn words(self) -> [i64; 2] {
        match self {
            Field::Empty => [0, 0],
            Field::Heard(number) => [1, number],
            Field::Read(number) => [2, number],
            Field::Confirmed(number) => [3, number],
        }
    }

    /// The field that has these words, with a number that can be heard.
    fn from_words(state: i64, number: i64) -> Option<Self> {
        match state {
            _ if number.unsigned_abs() > LARGEST_HEARD => None,
            0 if number == 0 => Some(Field::Empty),
            1 => Some(Field::Heard(number)),
            2 => Some(Field::Read(number)),
            3 => Some(Field::Confirmed(number)),
            _ => None,
        }
    }
}

/// An accepted hearing: the number of its field, and what stood there before.
#[derive(Clone, Copy, Debug, PartialEq, Eq)]
struct Hearing {
    field: i64,
    before: Field,
}

/// The card: eleven fields, field 1 first, and the latest hearing until it is undone.
#[derive(Clone, Debug, PartialEq, Eq)]
pub struct Card {
    fields: [Field; 11],
    latest: Option<Hearing>,
}

impl Default for Card {
    fn default() -> Self {
        Self::fresh()
    }
}

impl Card {
    /// A fresh card: every field is empty.
    pub fn fresh() -> Self {
        Card { fields: [Field::Empty; 11], latest: None }
    }

    /// The start before request 4: DUT1 is confirmed as 0, and the other fields are empty.
    pub fn fresh_with_dut1_assumed_zero() -> Self {
        let mut card = Card::fresh();
        card.fields[6] = Field::Confirmed(0);
        card
    }

    /// The fields, field 1 first.
    pub fn fields(&self) -> &[Field; 11] {
        &self.fields
    }

    /// Puts a number in a field as heard, whatever stood there; refusals 9, 13.
    pub fn hear(&mut self, field: i64, number: i64) -> Result<(), Refusal> {
        let place = self.field(field)?;
        if number.unsigned_abs() > LARGEST_HEARD {
            return Err(Refusal::NumberTooLarge);
        }
        let before = mem::replace(place, Field::Heard(number));
        self.latest = Some(Hearing { field, before });
        Ok(())
    }

    /// Puts back what the field of the latest hearing was before it, whatever became of it since;
    /// refusal 18.
    pub fn undo(&mut self) -> Result<(), Refusal> {
        let Hearing { field, before } = self.latest.take().ok_or(Refusal::NothingToUndo)?;
        self.field(field).map(|place| *place = before)
    }

    /// Writes a field's text at a place of a lent buffer, makes a heard field read and
    /// returns the text's length; refusals 9, 10, 11.
    pub fn read(&mut self, field: i64, place: usize, buffer: &mut [u8]) -> Result<usize, Refusal> {
        let field = self.field(field)?;
        let number = match *field {
            Field::Empty => return Err(Refusal::EmptyField),
            Field::Heard(number) | Field::Read(number) | Field::Confirmed(number) => number,
        };
        let text = text(number);
        let behind = buffer.get_mut(place..).ok_or(Refusal::TextDoesNotFit)?;
        let target = behind.get_mut(..text.len()).ok_or(Refusal::TextDoesNotFit)?;
        target.copy_from_slice(&text);
        if *field == Field::Heard(number) {
            *field = Field::Read(number);
        }
        Ok(text.len())
    }

    /// Turns a read field into a confirmed one; refusals 9, 12.
    pub fn confirm(&mut self, field: i64) -> Result<(), Refusal> {
        let field = self.field(field)?;
        let Field::Read(number) = *field else {
            return Err(Refusal::NotRead);
        };
        *field = Field::Confirmed(number);
        Ok(())
    }

    /// The shot from the card: refusal 1 unless every field is confirmed, whatever the options.
    pub fn shot(&self, sine: &Sine, options: Options) -> Result<Angles, Refusal> {
        let mut numbers: Fields = [0; 11];
        for (number, field) in numbers.iter_mut().zip(self.fields) {
            let Field::Confirmed(confirmed) = field else {
                return Err(Refusal::FieldNotConfirmed);
            };
            *number = confirmed;
        }
        shot(sine, &numbers, options)
    }

    /// The card in words: state and number of each field; then the number of the field whose
    /// hearing can be undone, 0 for none, and its state and number before.
    pub fn words(&self) -> [i64; WORDS] {
        let mut words = [0; WORDS];
        for (words, field) in words.chunks_exact_mut(2).zip(self.fields) {
            words.copy_from_slice(&field.words());
        }
        if let Some(Hearing { field, before }) = self.latest {
            words[22] = field;
            words[23..].copy_from_slice(&before.words());
        }
        words
    }

    /// The card that has these words, if one has.
    pub fn from_words(words: &[i64]) -> Option<Self> {
        let &[ref fields @ .., field, state, number]: &[i64; WORDS] = words.try_into().ok()?;
        let mut card = Card::fresh();
        for (place, words) in card.fields.iter_mut().zip(fields.chunks_exact(2)) {
            *place = Field::from_words(words[0], words[1])?;
        }
        let before = Field::from_words(state, number)?;
        card.latest = match field {
            0 if before == Field::Empty => None,
            1..=11 => Some(Hearing { field, before }),
            _ => return None,
        };
        Some(card)
    }

    /// The field of a number from 1 to 11, or refusal 9.
    fn field(&mut self, field: i64) -> Result<&mut Field, Refusal> {
        match field {
            1..=11 => Ok(&mut self.fields[field as usize - 1]),
            _ => Err(Refusal::NoSuchField),
        }
    }
}

#[cfg(test)]
impl Card {
    /// A card on which these numbers were heard, read and confirmed.
    pub fn confirmed(numbers: &Fields) -> Self {
        let mut card = Card::fresh();
        for (field, &number) in (1..).zip(numbers) {
            card.enter(field, number);
        }
        card
    }

    /// Hears a number for a field, reads it out and confirms it.
    fn enter(&mut self, field: i64, number: i64) {
        self.hear(field, number).unwrap();
        self.read(field, 0, &mut [0; LONGEST]).unwrap();
        self.confirm(field).unwrap();
    }
}

#[cfg(test)]
mod tests {
    use super::*;
    use crate::random::Random;
    use crate::random_calls::{random_calls, Start};
    use crate::replay::card_line;

    /// The Sun on 4 July 1980, answered in the outside vectors of shots.
    const FIELDS: Fields = [1980, 7, 4, 14, 41, 3_294, 245, -922_076, -743_081, 1, 115_194];

    /// The shot from a card by the short edition.
    fn short_shot(sine: &Sine, card: &Card) -> Result<Angles, Refusal> {
        card.shot(sine, Options::default())
    }

    /// A shot needs all eleven fields, whatever numbers stand in the others.
    #[test]
    fn every_field_must_be_confirmed() {
        let sine = Sine::new();
        let refused = Err(Refusal::FieldNotConfirmed);
        for (field, number) in (1..).zip(FIELDS) {
            let mut card = Card::confirmed(&FIELDS);
            card.hear(field, number).unwrap();
            assert_eq!(short_shot(&sine, &card), refused);
            card.read(field, 0, &mut [0; LONGEST]).unwrap();
            assert_eq!(short_shot(&sine, &card), refused);
            card.confirm(field).unwrap();
            assert_eq!(short_shot(&sine, &card), shot(&sine, &FIELDS, Options::default()));
        }
        let mut card = Card::confirmed(&FIELDS);
        card.fields[10] = Field::Empty;
        assert_eq!(short_shot(&sine, &card), refused);
        let mut card = Card::confirmed(&[0; 11]);
        assert_eq!(short_shot(&sine, &card), Err(Refusal::NoSuchDate));
        card.hear(11, 0).unwrap();
        assert_eq!(short_shot(&sine, &card), refused);
    }

    /// The options are those of the plain shot; a field that is not confirmed comes before them.
    #[test]
    fn options_of_a_shot_from_a_card() {
        let sine = Sine::new();
        let card = Card::confirmed(&FIELDS);
        for edition in [-1, 0, 1, 2, 3] {
            let options = Options { edition };
            assert_eq!(card.shot(&sine, options), shot(&sine, &FIELDS, options));
            let refused = Err(Refusal::FieldNotConfirmed);
            assert_eq!(Card::fresh().shot(&sine, options), refused);
        }
        assert_eq!(card.shot(&sine, Options { edition: 3 }), Err(Refusal::NoSuchEdition));
    }

    /// The two starts differ in DUT1 alone: on a fresh card nobody has said it, on the other
    /// one its 0 stands and is taken by a shot until DUT1 is heard.
    #[test]
    fn dut1_is_empty_on_a_fresh_card() {
        let sine = Sine::new();
        let (mut fresh, mut assumed) = (Card::fresh(), Card::fresh_with_dut1_assumed_zero());
        assert_eq!(fresh.fields(), &[Field::Empty; 11]);
        for (i, field) in assumed.fields().iter().enumerate() {
            assert_eq!(*field, if i == 6 { Field::Confirmed(0) } else { Field::Empty });
        }
        for card in [&mut fresh, &mut assumed] {
            for (field, number) in (1..).zip(FIELDS).filter(|&(field, _)| field != 7) {
                card.enter(field, number);
            }
        }
        let mut with_zero = FIELDS;
        with_zero[6] = 0;
        assert_eq!(short_shot(&sine, &fresh), Err(Refusal::FieldNotConfirmed));
        assert_eq!(short_shot(&sine, &assumed), shot(&sine, &with_zero, Options::default()));
        assumed.hear(7, 0).unwrap();
        assert_eq!(short_shot(&sine, &assumed), Err(Refusal::FieldNotConfirmed));
        fresh.enter(7, FIELDS[6]);
        assert_eq!(short_shot(&sine, &fresh), shot(&sine, &FIELDS, Options::default()));
    }

    #[test]
    fn field_numbers_run_from_1_to_11() {
        let mut card = Card::fresh();
        assert_eq!(card.hear(11, 120_001), Ok(()));
        for field in [i64::MIN, -11, 0, 12, i64::MAX] {
            assert_eq!(card.hear(field, 0), Err(Refusal::NoSuchField));
            assert_eq!(card.read(field, 0, &mut [0; LONGEST]), Err(Refusal::NoSuchField));
            assert_eq!(card.confirm(field), Err(Refusal::NoSuchField));
        }
    }

    #[test]
    fn starts_have_nothing_to_undo() {
        for start in [Card::fresh(), Card::fresh_with_dut1_assumed_zero()] {
            let mut card = start.clone();
            assert_eq!(card.undo(), Err(Refusal::NothingToUndo));
            assert_eq!(card, start);
        }
    }

    /// From each state that a field can be in, to each that it can be in after a hearing, while
    /// another field is read and confirmed.
    #[test]
    fn undo_puts_back_state_and_number() {
        for before in [Field::Empty, Field::Heard(15), Field::Read(-15), Field::Confirmed(0)] {
            for heard in [Field::Heard(50), Field::Read(50), Field::Confirmed(50)] {
                let mut card = Card::confirmed(&FIELDS);
                card.fields[4] = before;
                card.hear(6, 7).unwrap();
                card.hear(5, 50).unwrap();
                card.read(6, 0, &mut [0; LONGEST]).unwrap();
                if heard != Field::Heard(50) {
                    card.read(5, 0, &mut [0; LONGEST]).unwrap();
                }
                if heard == Field::Confirmed(50) {
                    card.confirm(5).unwrap();
                }
                card.confirm(6).unwrap();
                let mut fields = card.fields;
                assert_eq!(mem::replace(&mut fields[4], before), heard);
                assert_eq!(card.undo(), Ok(()));
                assert_eq!(card.fields, fields);
                assert_eq!(card.undo(), Err(Refusal::NothingToUndo));
                assert_eq!(card.fields, fields);
            }
        }
    }

    /// One hearing can be undone, not the one before it as well; the next can be again.
    #[test]
    fn only_the_latest_hearing_is_undone() {
        let mut card = Card::fresh();
        card.hear(1, 1978).unwrap();
        card.hear(2, 5).unwrap();
        card.undo().unwrap();
        assert_eq!(card.fields[..2], [Field::Heard(1978), Field::Empty]);
        assert_eq!(card.undo(), Err(Refusal::NothingToUndo));
        card.hear(1, 1979).unwrap();
        card.undo().unwrap();
        assert_eq!(card.fields[..2], [Field::Heard(1978), Field::Empty]);
    }

    #[test]
    fn refused_calls_leave_the_hearing() {
        let mut card = Card::fresh();
        card.hear(5, 50).unwrap();
        let heard = card.clone();
        assert_eq!(card.hear(5, 10_000_000), Err(Refusal::NumberTooLarge));
        assert_eq!(card.hear(12, 5), Err(Refusal::NoSuchField));
        assert_eq!(card.read(6, 0, &mut [0; LONGEST]), Err(Refusal::EmptyField));
        assert_eq!(card.read(5, 0, &mut [0; 2]), Err(Refusal::TextDoesNotFit));
        assert_eq!(card.confirm(5), Err(Refusal::NotRead));
        assert_eq!(short_shot(&Sine::new(), &card), Err(Refusal::FieldNotConfirmed));
        assert_eq!(card, heard);
        assert_eq!(card.undo(), Ok(()));
        assert_eq!(card, Card::fresh());
    }

    /// Heard twice, a number is still there after an undo.
    #[test]
    fn a_hearing_that_changes_nothing_counts() {
        let mut card = Card::fresh();
        card.hear(5, 50).unwrap();
        card.hear(5, 50).unwrap();
        assert_eq!(card.undo(), Ok(()));
        assert_eq!(card.fields[4], Field::Heard(50));
        assert_eq!(card.undo(), Err(Refusal::NothingToUndo));
    }

    #[test]
    fn words_of_a_card() {
        let mut card = Card::fresh_with_dut1_assumed_zero();
        let mut words = [0; WORDS];
        words[12] = 3;
        assert_eq!(card.words(), words);
        card.hear(11, -5).unwrap();
        words[20..].copy_from_slice(&[1, -5, 11, 0, 0]);
        assert_eq!(card.words(), words);
        card.hear(11, 6).unwrap();
        card.read(11, 0, &mut [0; LONGEST]).unwrap();
        words[20..].copy_from_slice(&[2, 6, 11, 1, -5]);
        assert_eq!(card.words(), words);
        card.undo().unwrap();
        words[20..].copy_from_slice(&[1, -5, 0, 0, 0]);
        assert_eq!(card.words(), words);
    }

    /// Every card of random histories is that of its words, and so is what a change of one word
    /// makes of them, where that is a card.
    #[test]
    fn words_and_cards_tell_each_other() {
        let sine = Sine::new();
        let mut random = Random::new(1);
        for start in [Start::Fresh, Start::Old] {
            let (mut card, mut changed) = (Card::fresh(), 0);
            let calls = random_calls(&sine, start, 1, 5_000);
            for call in calls.split_inclusive(|&byte| byte == b'\n') {
                card_line(&sine, &mut card, call.trim_ascii_end()).unwrap();
                let mut words = card.words();
                assert_eq!(Card::from_words(&words).as_ref(), Some(&card));
                words[random.between(0, 24) as usize] = random.between(-1, 12);
                if let Some(other) = Card::from_words(&words) {
                    assert_eq!(other.words(), words);
                    changed += 1;
                }
            }
            assert!(changed > 1_000);
        }
    }

    #[test]
    fn words_of_no_card() {
        let mut card = Card::fresh();
        let none = card.words();
        card.hear(5, 50).unwrap();
        card.hear(5, 15).unwrap();
        let words = card.words();
        let with = |mut words: [i64; WORDS], place: usize, word: i64| {
            words[place] = word;
            Card::from_words(&words)
        };
        assert_eq!(Card::from_words(&[]), None);
        assert_eq!(Card::from_words(&words[..24]), None);
        assert_eq!(Card::from_words(&[words.as_slice(), &[0]].concat()), None);
        let large = LARGEST_HEARD as i64 + 1;
        for place in [8, 23] {
            for state in [i64::MIN, -1, 0, 4, i64::MAX] {
                assert_eq!(with(words, place, state), None);
            }
            for number in [i64::MIN, -large, large, i64::MAX] {
                assert_eq!(with(words, place + 1, number), None);
            }
            for number in [1 - large, 0, large - 1] {
                assert!(with(words, place + 1, number).is_some());
            }
        }
        assert_eq!(with(words, 1, 1), None);
        for field in [i64::MIN, -1, 0, 12, i64::MAX] {
            assert_eq!(with(words, 22, field), None);
        }
        assert_eq!(with(none, 23, 1), None);
        assert_eq!(with(none, 24, 1), None);
        assert!(with(none, 22, 11).is_some());
    }
}
