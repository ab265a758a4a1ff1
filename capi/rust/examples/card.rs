//! Keeps a card by the lines of standard input, `hear FIELD NUMBER`, `read FIELD`, `confirm FIELD`,
//! `undo` and `shot`, and prints for each the text read out, the angles, `ok`, or the refusal.
//!
//! usage: card [EDITION]    the edition of the Sun's series, a number; else the short one

use fieldbook::{Card, Options, Refusal};
use std::env;
use std::error::Error;
use std::io::{self, BufRead};
use std::num::ParseIntError;

/// The most digits of a number, so that 64 bits hold it.
const MOST_DIGITS: usize = 18;
/// The most bytes of a field's text.
const LONGEST_TEXT: usize = 15;

/// The default options, but with the edition that the command's first word names, if any.
fn options() -> Result<Options, ParseIntError> {
    let mut options = Options::default();
    if let Some(edition) = env::args().nth(1) {
        options.edition = edition.parse()?;
    }
    Ok(options)
}

/// A number: an optional `-` and digits.
fn number(word: &str) -> Option<i64> {
    let digits = word.strip_prefix('-').unwrap_or(word);
    let allowed = digits.len() <= MOST_DIGITS && digits.bytes().all(|byte| byte.is_ascii_digit());
    word.parse().ok().filter(|_| allowed)
}

/// Reads a field out.
fn text(card: &mut Card, field: i64) -> Result<String, Refusal> {
    let mut text = [0; LONGEST_TEXT];
    let length = card.read(field, &mut text, 0)?;
    Ok(String::from_utf8_lossy(&text[..length]).into_owned())
}

/// The angles of a shot.
fn angles(card: &Card, options: Options) -> Result<String, Refusal> {
    let a = card.shot(options)?;
    Ok(format!("az {} zd {} ha {} s {}", a.azimuth, a.zenith_distance, a.hour_angle, a.longitude))
}

/// What the call of a line answers; none where the line is no call.
fn answer(card: &mut Card, options: Options, line: &str) -> Option<Result<String, Refusal>> {
    let words: Vec<&str> = line.split(' ').collect();
    let done = match words[..] {
        ["hear", field, heard] => card.hear(number(field)?, number(heard)?),
        ["read", field] => return Some(text(card, number(field)?)),
        ["confirm", field] => card.confirm(number(field)?),
        ["undo"] => card.undo(),
        ["shot"] => return Some(angles(card, options)),
        _ => return None,
    };
    Some(done.map(|()| "ok".to_string()))
}

fn main() -> Result<(), Box<dyn Error>> {
    let options = options()?;
    let mut card = Card::fresh();
    for line in io::stdin().lock().split(b'\n') {
        match answer(&mut card, options, &String::from_utf8_lossy(&line?)) {
            Some(Ok(text)) => println!("{text}"),
            Some(Err(refusal)) => println!("no {}", refusal as u64),
            None => println!("no 14"), // as the session refuses a line
        }
    }
    Ok(())
}
