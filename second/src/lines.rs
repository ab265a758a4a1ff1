//! Words and numbers of a line. Document 01, "One session, whole".

use crate::refusal::Refusal;

/// The most digits of a number on a line of plain numbers: any such number fits 64 bits.
pub const MOST_DIGITS: usize = 18;

/// The words of a line, one space between; two spaces enclose an empty word.
pub fn words(line: &[u8]) -> Vec<&[u8]> {
    line.split(|&byte| byte == b' ').collect()
}

/// A number: an optional "-" and 1 to `most_digits` digits, or refusal 14.
pub fn number(word: &[u8], most_digits: usize) -> Result<i64, Refusal> {
    let digits = word.strip_prefix(b"-").unwrap_or(word);
    let allowed = (1..=most_digits).contains(&digits.len());
    if !allowed || !digits.iter().all(u8::is_ascii_digit) {
        return Err(Refusal::MalformedLine);
    }
    let magnitude = digits.iter().fold(0, |value, digit| 10 * value + i64::from(digit - b'0'));
    Ok(if digits.len() < word.len() { -magnitude } else { magnitude })
}

/// A line of plain numbers, or refusal 14.
pub fn all_numbers(line: &[u8]) -> Result<Vec<i64>, Refusal> {
    words(line).into_iter().map(|word| number(word, MOST_DIGITS)).collect()
}

/// A line of the vectors, whose numbers reach to the ends of 64 bits, or refusal 14.
pub fn vector_numbers(line: &[u8]) -> Result<Vec<i64>, Refusal> {
    let text = str::from_utf8(line).map_err(|_| Refusal::MalformedLine)?;
    text.split(' ').map(|word| word.parse().map_err(|_| Refusal::MalformedLine)).collect()
}

/// A line of exactly `COUNT` plain numbers, or refusal 14.
pub fn numbers<const COUNT: usize>(line: &[u8]) -> Result<[i64; COUNT], Refusal> {
    all_numbers(line)?.try_into().map_err(|_| Refusal::MalformedLine)
}

/// Numbers as words with one space between.
pub fn joined(numbers: &[impl ToString]) -> String {
    let words: Vec<String> = numbers.iter().map(ToString::to_string).collect();
    words.join(" ")
}
