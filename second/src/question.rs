//! What the book is asked in plain numbers, through its library or by a line of numbers, and
//! this program's answers.

use crate::counts::{answered_or, Outcome};
use crate::fieldbook::{shot, Fields};
use crate::lines::{all_numbers, joined, vector_numbers};
use crate::options::Options;
use crate::pointing::pointing;
use crate::random::{pointing_numbers, shot_numbers, Random};
use crate::random_choices::lists;
use crate::random_instants::instant_numbers;
use crate::refusal::Refusal;
use crate::short_series::cost;
use crate::sine::Sine;
use crate::spread::{choose, spread};

/// A question that is made of numbers alone.
pub trait Question: Sized {
    /// The values of an answer, in the order of the C interface.
    type Values: AsRef<[u64]> + Copy;
    /// The values that stand with a refusal.
    const REFUSED: Self::Values;

    /// The outcomes that a comparison must reach.
    fn outcomes() -> Vec<Outcome>;

    /// A random question.
    fn random(random: &mut Random, sine: &Sine) -> Self;

    /// The question of a line's numbers, or refusal 14.
    fn from_numbers(numbers: &[i64]) -> Result<Self, Refusal>;

    /// The numbers of its line.
    fn numbers(&self) -> Vec<i64>;

    /// This program's answer.
    fn answer(&self, sine: &Sine) -> Result<Self::Values, Refusal>;

    /// An answer as a library gives it.
    fn as_library(answer: Result<Self::Values, Refusal>) -> LibraryAnswer<Self> {
        match answer {
            Ok(values) => (0, values),
            Err(refusal) => (refusal.number() as u64, Self::REFUSED),
        }
    }

    /// What a library's answer counts as.
    fn outcome(&self, &(refusal, values): &LibraryAnswer<Self>) -> Outcome {
        match refusal {
            0 => self.answered(&values),
            _ => Outcome::Refused(refusal),
        }
    }

    /// What these values of an answer count as.
    fn answered(&self, _values: &Self::Values) -> Outcome {
        Outcome::Answered
    }
}

/// A question that a batch program is asked, a line for each, with its options at the end.
pub trait BatchQuestion: Question {
    /// The word in front of each value of the program's answer.
    const NAMES: &'static [&'static str];

    /// The defaults of these options, which a line may leave out.
    fn defaults() -> Vec<i64> {
        Options::default().numbers()
    }
}

/// A library's answer: the refusal's number, 0 for none, and the values.
pub type LibraryAnswer<Q> = (u64, <Q as Question>::Values);

/// A library's answer as the vectors have it: the refusal's number, then the values.
pub fn answer_text((refusal, values): &(u64, impl AsRef<[u64]>)) -> String {
    format!("{refusal} {}", joined(values.as_ref()))
}

/// The question of a batch program's line, or refusal 14.
pub fn asked<Q: Question>(line: &[u8]) -> Result<Q, Refusal> {
    Q::from_numbers(&all_numbers(line)?)
}

/// The question of a line of the vectors, or refusal 14.
pub fn asked_by_vector<Q: Question>(line: &[u8]) -> Result<Q, Refusal> {
    Q::from_numbers(&vector_numbers(line)?)
}

/// A shot with eleven numbers and its options.
#[derive(Clone, Copy, Debug)]
pub struct Shot {
    pub fields: Fields,
    pub options: Options,
}

impl Question for Shot {
    type Values = [u64; 4];
    const REFUSED: [u64; 4] = [0; 4];

    fn outcomes() -> Vec<Outcome> {
        answered_or((2..=8).chain([17, 19]))
    }

    fn random(random: &mut Random, sine: &Sine) -> Self {
        let (fields, options) = shot_numbers(random, sine);
        Shot { fields, options }
    }

    fn from_numbers(numbers: &[i64]) -> Result<Self, Refusal> {
        let (fields, options) = Options::behind(numbers)?;
        Ok(Shot { fields, options })
    }

    fn numbers(&self) -> Vec<i64> {
        [self.fields.as_slice(), &self.options.numbers()].concat()
    }

    fn answer(&self, sine: &Sine) -> Result<[u64; 4], Refusal> {
        shot(sine, &self.fields, self.options).map(|angles| angles.words())
    }
}

impl BatchQuestion for Shot {
    const NAMES: &'static [&'static str] = &["az", "zd", "ha", "s"];
}

/// A pointing with eleven numbers, the horizontal angle and the options of its shot.
#[derive(Clone, Copy, Debug)]
pub struct Pointing {
    pub fields: Fields,
    pub angle: i64,
    pub options: Options,
}

impl Question for Pointing {
    type Values = [u64; 1];
    const REFUSED: [u64; 1] = [0];

    fn outcomes() -> Vec<Outcome> {
        [Shot::outcomes(), vec![Outcome::Refused(15)]].concat()
    }

    fn random(random: &mut Random, sine: &Sine) -> Self {
        let (fields, angle, options) = pointing_numbers(random, sine);
        Pointing { fields, angle, options }
    }

    fn from_numbers(numbers: &[i64]) -> Result<Self, Refusal> {
        let ([fields @ .., angle], options) = Options::behind::<12>(numbers)?;
        Ok(Pointing { fields, angle, options })
    }

    fn numbers(&self) -> Vec<i64> {
        [self.fields.as_slice(), &[self.angle], &self.options.numbers()].concat()
    }

    fn answer(&self, sine: &Sine) -> Result<[u64; 1], Refusal> {
        pointing(sine, &self.fields, self.angle, self.options).map(|mark| [mark as u64])
    }
}

impl BatchQuestion for Pointing {
    const NAMES: &'static [&'static str] = &["mark"];
}

/// Both editions of the Sun's series at the instant of fields 1 to 7 and 11.
#[derive(Clone, Copy, Debug)]
pub struct Editions {
    pub fields: [i64; 8],
}

impl Question for Editions {
    type Values = [u64; 4];
    const REFUSED: [u64; 4] = [0; 4];

    fn outcomes() -> Vec<Outcome> {
        answered_or([2, 3, 4, 17])
    }

    fn random(random: &mut Random, sine: &Sine) -> Self {
        Editions { fields: instant_numbers(random, sine) }
    }

    fn from_numbers(numbers: &[i64]) -> Result<Self, Refusal> {
        Ok(Editions { fields: numbers.try_into().map_err(|_| Refusal::MalformedLine)? })
    }

    fn numbers(&self) -> Vec<i64> {
        self.fields.to_vec()
    }

    fn answer(&self, sine: &Sine) -> Result<[u64; 4], Refusal> {
        cost(sine, &self.fields).map(|cost| cost.words())
    }
}

impl BatchQuestion for Editions {
    const NAMES: &'static [&'static str] = &["short", "full", "apart", "bound"];

    /// It has no options.
    fn defaults() -> Vec<i64> {
        vec![]
    }
}

/// A choice between two lists of results.
#[derive(Clone, Debug)]
pub struct Choice {
    pub first: Vec<i64>,
    pub second: Vec<i64>,
}

/// Takes a list off the front of a line's numbers: how many there are, then these.
fn list<'a>(numbers: &mut &'a [i64]) -> Result<&'a [i64], Refusal> {
    let (&count, rest) = numbers.split_first().ok_or(Refusal::MalformedLine)?;
    let count = usize::try_from(count).map_err(|_| Refusal::MalformedLine)?;
    let (list, rest) = rest.split_at_checked(count).ok_or(Refusal::MalformedLine)?;
    *numbers = rest;
    Ok(list)
}

impl Question for Choice {
    /// The list's number and its length.
    type Values = [u64; 2];
    const REFUSED: [u64; 2] = [1, 0];

    fn outcomes() -> Vec<Outcome> {
        use Outcome::{First, Refused, Second, Tie};
        vec![First, Second, Tie, Refused(15), Refused(16)]
    }

    fn random(random: &mut Random, _sine: &Sine) -> Self {
        let (first, second) = lists(random);
        Choice { first, second }
    }

    fn from_numbers(mut numbers: &[i64]) -> Result<Self, Refusal> {
        let (first, second) = (list(&mut numbers)?, list(&mut numbers)?);
        if !numbers.is_empty() {
            return Err(Refusal::MalformedLine);
        }
        Ok(Choice { first: first.to_vec(), second: second.to_vec() })
    }

    fn numbers(&self) -> Vec<i64> {
        let counts = [self.first.len() as i64, self.second.len() as i64];
        [&counts[..1], &self.first, &counts[1..], &self.second].concat()
    }

    fn answer(&self, _sine: &Sine) -> Result<[u64; 2], Refusal> {
        let chosen = choose(&self.first, &self.second);
        chosen.list.map(|list| [list as u64, chosen.part.len() as u64])
    }

    fn answered(&self, &[list, _]: &[u64; 2]) -> Outcome {
        match list {
            _ if spread(&self.first) == spread(&self.second) => Outcome::Tie,
            1 => Outcome::First,
            _ => Outcome::Second,
        }
    }
}
