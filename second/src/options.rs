//! What the caller of a shot may choose beside its numbers, each choice by its number. Document 02,
//! request 7.

use crate::edition;
use crate::refusal::Refusal;

/// The options of a shot, as the caller names them: any numbers.
#[derive(Clone, Copy, Debug, PartialEq, Eq)]
pub struct Options {
    /// The edition of the Sun's series; Polaris has none, but an unknown one is refused there too.
    pub edition: i64,
}

impl Default for Options {
    /// What stands where nobody names anything: the short edition.
    fn default() -> Self {
        Options { edition: edition::SHORT }
    }
}

impl Options {
    /// The options at the end of a line, those left out at their defaults, or refusal 14.
    fn from_numbers(numbers: &[i64]) -> Result<Self, Refusal> {
        match *numbers {
            [] => Ok(Options::default()),
            [edition] => Ok(Options { edition }),
            _ => Err(Refusal::MalformedLine),
        }
    }

    /// The numbers of a line, the first `COUNT` of them and the options behind, or refusal 14.
    pub fn behind<const COUNT: usize>(numbers: &[i64]) -> Result<([i64; COUNT], Self), Refusal> {
        let (first, rest) = numbers.split_first_chunk().ok_or(Refusal::MalformedLine)?;
        Ok((*first, Options::from_numbers(rest)?))
    }

    /// All of them as they stand on a line.
    pub fn numbers(self) -> Vec<i64> {
        vec![self.edition]
    }
}

#[cfg(test)]
mod tests {
    use super::*;

    #[test]
    fn options_behind_the_numbers_of_a_line() {
        let short = Options { edition: 1 };
        assert_eq!(Options::behind(&[5, 6]), Ok(([5, 6], short)));
        assert_eq!(Options::behind(&[5, 6, 1]), Ok(([5, 6], short)));
        assert_eq!(Options::behind(&[5, 6, -9]), Ok(([5, 6], Options { edition: -9 })));
        for numbers in [&[][..], &[5], &[5, 6, 1, 1]] {
            assert_eq!(Options::behind::<2>(numbers), Err(Refusal::MalformedLine));
        }
    }
}
