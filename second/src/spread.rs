//! The choice between two lists of results by their spread. Document 02, request 1.

use crate::exact::is_reduced;
use crate::refusal::Refusal;

/// The most results of a list.
pub const LONGEST_LIST: usize = 64;

/// One of the two lists; its number is its value.
#[derive(Clone, Copy, Debug, PartialEq, Eq)]
pub enum List {
    First = 1,
    Second = 2,
}

/// What a choice hands back.
#[derive(Clone, Copy, Debug, PartialEq, Eq)]
pub struct Chosen<'a> {
    pub list: Result<List, Refusal>,
    /// The caller's own slice: that list whole, or the empty front of the first where refused.
    pub part: &'a [i64],
}

/// The largest result less the smallest, as plain numbers; nothing for an empty list.
pub fn spread(results: &[i64]) -> Option<u64> {
    Some(results.iter().max()?.abs_diff(*results.iter().min()?))
}

/// The list with the smaller spread, the first on a tie; refusal 16 of either, then 15 of either.
fn smaller_spread(first: &[i64], second: &[i64]) -> Result<List, Refusal> {
    let lists = [first, second];
    if lists.iter().any(|list| !(1..=LONGEST_LIST).contains(&list.len())) {
        return Err(Refusal::LengthOutOfRange);
    }
    if lists.iter().any(|list| !list.iter().all(|&result| is_reduced(result))) {
        return Err(Refusal::AngleOutOfRange);
    }
    Ok(if spread(first) <= spread(second) { List::First } else { List::Second })
}

/// Hands back the list with the smaller spread, nothing copied.
pub fn choose<'a>(first: &'a [i64], second: &'a [i64]) -> Chosen<'a> {
    let list = smaller_spread(first, second);
    let part = match list {
        Ok(List::First) => first,
        Ok(List::Second) => second,
        Err(_) => &first[..0],
    };
    Chosen { list, part }
}

#[cfg(test)]
mod tests {
    use super::*;
    use crate::exact::TURN;

    /// The list or the refusal, and whether the slice is the caller's own.
    fn chosen(first: &[i64], second: &[i64]) -> Result<List, Refusal> {
        let Chosen { list, part } = choose(first, second);
        let own = match list {
            Ok(List::First) => first,
            Ok(List::Second) => second,
            Err(_) => &first[..0],
        };
        assert!(std::ptr::eq(part, own));
        list
    }

    #[test]
    fn smaller_spread_or_the_first() {
        assert_eq!(chosen(&[5], &[7, 7]), Ok(List::First));
        assert_eq!(chosen(&[3, 5], &[8, 9]), Ok(List::Second));
        assert_eq!(chosen(&[3, 5], &[9, 7]), Ok(List::First));
        let results = [4, 9, 2];
        assert_eq!(chosen(&results, &results), Ok(List::First));
        assert_eq!(chosen(&results, &results[..2]), Ok(List::Second));
    }

    /// The spread doesn't go round the circle.
    #[test]
    fn results_around_north_are_wide() {
        assert_eq!(spread(&[1, TURN - 1]), Some(12_959_999_998));
        assert_eq!(chosen(&[1, TURN - 1], &[0, 6_000_000_000]), Ok(List::Second));
    }

    #[test]
    fn lengths_are_tested_first() {
        let long = [0; LONGEST_LIST + 1];
        let whole = &long[1..];
        assert_eq!(chosen(whole, whole), Ok(List::First));
        for bad in [&[], long.as_slice(), &[0; 5_000]] {
            for other in [bad, whole, &[-1], &[i64::MAX]] {
                assert_eq!(chosen(bad, other), Err(Refusal::LengthOutOfRange));
                assert_eq!(chosen(other, bad), Err(Refusal::LengthOutOfRange));
            }
        }
    }

    #[test]
    fn results_out_of_range() {
        for bad in [-1, TURN, i64::MIN, i64::MAX] {
            assert_eq!(chosen(&[0, bad], &[0]), Err(Refusal::AngleOutOfRange));
            assert_eq!(chosen(&[0], &[bad, 0]), Err(Refusal::AngleOutOfRange));
        }
        assert_eq!(chosen(&[i64::MIN, i64::MAX], &[0]), Err(Refusal::AngleOutOfRange));
        assert_eq!(chosen(&[0, TURN - 1], &[TURN - 1, 1]), Ok(List::Second));
    }
}
