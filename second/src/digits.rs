//! The text of a number, digit by digit. Document 01, "The card", last paragraph.

/// The longest text in bytes: "-" and seven digits with a space between.
pub const LONGEST: usize = 15;

/// The number as it is written, with single spaces between its sign and digits.
pub fn text(number: i64) -> Vec<u8> {
    let mut bytes = Vec::with_capacity(LONGEST);
    for digit in number.to_string().bytes() {
        if !bytes.is_empty() {
            bytes.push(b' ');
        }
        bytes.push(digit);
    }
    bytes
}

#[cfg(test)]
mod tests {
    use super::*;

    #[test]
    fn texts_of_document_01() {
        assert_eq!(text(50), b"5 0");
        assert_eq!(text(-75), b"- 7 5");
        assert_eq!(text(0), b"0");
        assert_eq!(text(-9_999_999).len(), LONGEST);
    }
}
