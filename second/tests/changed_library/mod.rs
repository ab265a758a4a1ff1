//! A library that answers as this program does but for one change, to try whether a comparison
//! finds it.

use second::compare::compare_library;
use second::counts::Counts;
use second::question::{LibraryAnswer, Question};
use second::sine::Sine;

/// How many random questions it is compared on.
pub const COUNT: u64 = 20_000;

/// The comparison of this program with such a library.
pub fn changed<Q: Question>(change: impl Fn(&Q, &mut LibraryAnswer<Q>)) -> Result<Counts, String> {
    let sine = Sine::new();
    let right = |question: &Q| Q::as_library(question.answer(&sine));
    let wrong = |question: &Q| {
        let mut answer = right(question);
        change(question, &mut answer);
        answer
    };
    compare_library(&sine, (1, COUNT), &[("right", &right), ("wrong", &wrong)])
}
