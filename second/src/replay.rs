//! Answers to single lines of the vectors' formats and of the batch programs.

use crate::angle::angle;
use crate::arguments::{Arguments, ALL};
use crate::bound::LongitudeBounds;
use crate::calendar::instant;
use crate::call::{to_hex, Call};
use crate::card::{Card, Field};
use crate::edition::Edition;
use crate::frame::frame;
use crate::lines::{all_numbers, joined, number, numbers, words, MOST_DIGITS};
use crate::options::Options;
use crate::parts::parts;
use crate::pointing::pointing_from_card;
use crate::polynomial::Polynomial;
use crate::question::{answer_text, asked, asked_by_vector, BatchQuestion, Question};
use crate::refusal::Refusal;
use crate::sine::Sine;
use crate::sun::{polynomial_longitude, sun};

/// A refusal as a line.
pub fn refused(refusal: Refusal) -> String {
    format!("no {}", refusal.number())
}

/// A batch program: numbers -> the values of the answer, each behind its name, or `no N`.
pub fn batch_line<Q: BatchQuestion>(sine: &Sine, line: &[u8]) -> String {
    match asked::<Q>(line).and_then(|question| question.answer(sine)) {
        Ok(values) => {
            let named = Q::NAMES.iter().zip(values.as_ref());
            let words: Vec<String> = named.map(|(name, value)| format!("{name} {value}")).collect();
            words.join(" ")
        }
        Err(refusal) => refused(refusal),
    }
}

/// The numbers of a vector's question -> the refusal's number, 0 for none, and the answer's values.
pub fn question_line<Q: Question>(sine: &Sine, line: &[u8]) -> Result<String, Refusal> {
    Ok(answer_text(&Q::as_library(asked_by_vector::<Q>(line)?.answer(sine))))
}

/// Eleven numbers, and the edition unless it is 1 -> every step by name.
pub fn parts_line(sine: &Sine, line: &[u8]) -> Result<String, Refusal> {
    let (fields, options) = Options::behind(&all_numbers(line)?)?;
    parts(sine, &fields, options)
}

/// a -> Sin(a) Cos(a).
pub fn sine_line(sine: &Sine, line: &[u8]) -> Result<String, Refusal> {
    let [a] = numbers(line)?;
    Ok(joined(&[sine.sin(a), sine.cos(a)]))
}

/// x y -> angle(x, y).
pub fn angle_line(sine: &Sine, line: &[u8]) -> Result<String, Refusal> {
    let [x, y] = numbers(line)?;
    Ok(angle(sine, x, y).to_string())
}

/// Fields 1 to 7 and 11, and the edition unless it is 1 -> s, the polynomial longitude and the
/// edition's bound; or refusals 2, 3, 4, 17, 19.
pub fn longitude_line(
    sine: &Sine,
    polynomial: &Polynomial,
    bounds: &LongitudeBounds,
    line: &[u8],
) -> Result<String, Refusal> {
    let (fields, options) = Options::behind(&all_numbers(line)?)?;
    let instant = instant(&fields)?;
    let edition = Edition::from_number(options.edition)?;
    let q = instant.ephemeris.millionths;
    let arguments = Arguments::at(&instant.ephemeris, &ALL);
    let frame = frame(sine, &instant, &arguments);
    let s = sun(sine, edition, &arguments, q, &frame).apparent_longitude;
    let exact = polynomial_longitude(polynomial, edition, &arguments, q);
    Ok(joined(&[s, exact, bounds.of(edition)]))
}

/// One call on the card: `fresh`, `old` (the start before request 4), `hear F N`,
/// `read F PLACE BUFFER`, `confirm F`, `undo`, `shot` or `pointing A`, these two without options ->
/// what it returned, then the card's fields.
pub fn card_line(sine: &Sine, card: &mut Card, line: &[u8]) -> Result<String, Refusal> {
    card_line_by(&mut |call, card, buffer| call.answer(sine, card, buffer), sine, card, line)
}

/// A call on a card, with a buffer for a reading -> the words of its answer.
pub type CardCall<'a> = &'a mut dyn FnMut(&Call, &mut Card, &mut [u8]) -> Vec<u64>;

/// The same, with calls that somebody else makes.
pub fn card_line_by(
    make: CardCall,
    sine: &Sine,
    card: &mut Card,
    line: &[u8],
) -> Result<String, Refusal> {
    let words = words(line);
    let returned = match *words {
        [b"old"] => {
            *card = Card::fresh_with_dut1_assumed_zero();
            String::new()
        }
        [b"pointing", angle] => pointing_call(sine, card, number(angle, MOST_DIGITS)?),
        _ => returned(make, card, &Call::from_words(&words)?),
    };
    let fields: Vec<String> = card.fields().iter().map(field_text).collect();
    Ok(format!("{returned}| {}", fields.join(" ")))
}

/// What a call returns: the words of its answer, and behind those of a reading the buffer; a start
/// returns nothing.
fn returned(make: CardCall, card: &mut Card, call: &Call) -> String {
    let mut buffer = call.buffer().to_vec();
    let answer = joined(&make(call, card, &mut buffer));
    match call {
        Call::Fresh => String::new(),
        Call::Read { .. } => format!("{answer} {} ", to_hex(&buffer)),
        _ => format!("{answer} "),
    }
}

/// A pointing from the card: refusal and the mark's azimuth, 0 when refused.
fn pointing_call(sine: &Sine, card: &Card, angle: i64) -> String {
    let result = pointing_from_card(sine, card, angle, Options::default());
    let number = result.map_or_else(Refusal::number, |_| 0);
    format!("{number} {} ", result.unwrap_or_default())
}

/// A field's state and number: e, hN, rN, cN.
fn field_text(field: &Field) -> String {
    match field {
        Field::Empty => "e".to_string(),
        Field::Heard(number) => format!("h{number}"),
        Field::Read(number) => format!("r{number}"),
        Field::Confirmed(number) => format!("c{number}"),
    }
}

#[cfg(test)]
mod tests {
    use super::*;

    /// A pointing from the card answers with the card as it was.
    #[test]
    fn pointing_from_a_card() {
        let sine = Sine::new();
        let mut card = Card::fresh();
        let mut answer = |line: &str| card_line(&sine, &mut card, line.as_bytes());
        let fresh = "| e e e e e e e e e e e";
        assert_eq!(answer("pointing -1"), Ok(format!("1 0 {fresh}")));
        let fields = [1980, 7, 4, 14, 41, 3_294, 245, -922_076, -743_081, 1, 115_194];
        for (field, number) in (1..).zip(fields) {
            for call in ["hear F N", "read F 0 000000000000000000000000000000", "confirm F"] {
                let call = call.replace('F', &format!("{field}"));
                assert!(answer(&call.replace('N', &format!("{number}"))).is_ok());
            }
        }
        let confirmed = "| c1980 c7 c4 c14 c41 c3294 c245 c-922076 c-743081 c1 c115194";
        assert_eq!(answer("pointing 758"), Ok(format!("0 12170702000 {confirmed}")));
        assert_eq!(answer("pointing -1"), Ok(format!("15 0 {confirmed}")));
        for line in ["pointing", "pointing  5", "pointing 5 5", "pointing x"] {
            assert_eq!(answer(line), Err(Refusal::MalformedLine));
        }
    }

    #[test]
    fn undo_takes_no_number() {
        let sine = Sine::new();
        for line in ["undo 5", "undo ", " undo", "Undo"] {
            let answer = card_line(&sine, &mut Card::fresh(), line.as_bytes());
            assert_eq!(answer, Err(Refusal::MalformedLine));
        }
    }

    /// A line that lacks its edition is answered as with 1; one number more is too many.
    #[test]
    fn edition_left_out() {
        let (sine, polynomial) = (Sine::new(), Polynomial::new());
        let bounds = LongitudeBounds::new();
        let shot = "1980 7 4 14 41 3294 245 -922076 -743081 1 115194";
        let parts = |line: String| parts_line(&sine, line.as_bytes());
        let instant = "1980 7 4 14 41 3294 245 115194";
        let longitude = |line: String| longitude_line(&sine, &polynomial, &bounds, line.as_bytes());
        assert!(parts(shot.to_string()).is_ok() && longitude(instant.to_string()).is_ok());
        assert_eq!(parts(shot.to_string()), parts(format!("{shot} 1")));
        assert_eq!(longitude(instant.to_string()), longitude(format!("{instant} 1")));
        for edition in ["0", "3", "-1"] {
            assert_eq!(parts(format!("{shot} {edition}")), Err(Refusal::NoSuchEdition));
            assert_eq!(longitude(format!("{instant} {edition}")), Err(Refusal::NoSuchEdition));
        }
        assert_eq!(parts(format!("{shot} 1 1")), Err(Refusal::MalformedLine));
        assert_eq!(longitude(format!("{instant} 1 1")), Err(Refusal::MalformedLine));
    }
}
