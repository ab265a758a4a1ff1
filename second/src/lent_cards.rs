//! Random histories of calls on a card that a library keeps in words its caller lends, or that it
//! shows by its fields alone: document 02, request 6; its shots have options: request 7.

use crate::call::Call;
use crate::card::{Card, Field, LARGEST_HEARD, WORDS};
use crate::compare::outcomes_of_calls;
use crate::counts::{Counts, Outcome};
use crate::lines::joined;
use crate::random::{any_size, random_options, Random, EXTREMES};
use crate::random_calls::{history, CALLS};
use crate::replay::card_line_by;
use crate::sine::Sine;
use std::fmt::Debug;

/// What refuses words that are no card.
pub const NO_CARD: u64 = 100;
/// The first of the words that tell of the hearing to undo.
const HEARING: usize = 22;
/// How many spares stand on either side of what is lent: more than a text is long.
const SPARES: usize = 16;
/// Before one of so many calls the same is made with a number from all of 64 bits.
const WIDE: i64 = 30;
/// Before one of so many shots the same is made with other options.
const OTHER_OPTIONS: i64 = 2;
/// Before one of so many calls one is made on a spoiled copy of the words.
const SPOILED: i64 = 10;
/// States that no field has; some have the low bits of one.
const NO_STATES: [i64; 8] = [-1, 4, 5, -3, 257, (1 << 32) + 3, i64::MIN + 2, i64::MAX];
/// Numbers of no field; some have the low bits of one.
const NO_FIELDS: [i64; 7] = [-1, 12, -11, 256 + 5, (1 << 32) + 5, i64::MIN, i64::MAX];
/// Counts of words that no card has.
const NO_COUNTS: [usize; 4] = [0, WORDS - 1, WORDS + 1, 2 * WORDS];

/// A library's call on lent words and a lent buffer -> the words of its answer.
pub type LentCall<'a> = &'a mut dyn FnMut(&Call, &mut [i64], &mut [u8]) -> Vec<u64>;

/// A library's call on a card of its own and a lent buffer -> the words of its answer, and the
/// fields that the card shows after it.
pub type OwnCall<'a> = &'a mut dyn FnMut(&Call, &mut [u8]) -> (Vec<u64>, Vec<Field>);

/// What a call leaves: the words of its answer, the card, and the buffer with its spares.
type Left<C> = (Vec<u64>, C, Vec<u8>);

/// The outcomes that calls on a library's own card reach: a shot there may name an edition.
pub fn outcomes_of_own_cards() -> Vec<Outcome> {
    [outcomes_of_calls(), vec![Outcome::Refused(19)]].concat()
}

/// The outcomes that calls on lent words reach.
pub fn outcomes_of_lent_cards() -> Vec<Outcome> {
    [outcomes_of_own_cards(), vec![Outcome::Refused(NO_CARD)]].concat()
}

/// This program's call on lent words: on the card they are, or refused and nothing written. For a
/// fresh card it is enough that there are as many as a card has.
pub fn call_on_words(sine: &Sine, call: &Call, words: &mut [i64], buffer: &mut [u8]) -> Vec<u64> {
    let card = match call {
        Call::Fresh if words.len() == WORDS => Some(Card::fresh()),
        _ => Card::from_words(words),
    };
    let Some(mut card) = card else {
        return call.answer_words(Err(NO_CARD));
    };
    let answer = call.answer(sine, &mut card, buffer);
    words.copy_from_slice(&card.words());
    answer
}

/// Compares a library's calls on lent words with this program's, until `count` are made: their
/// answers, all words and the whole buffer, and the spares around both. What becomes of spoiled
/// words is not kept.
pub fn compare_lent_cards(
    sine: &Sine,
    run: (u64, u64),
    library: LentCall,
) -> Result<Counts, String> {
    let mut words = Card::fresh().words().to_vec();
    each_call(sine, run, |random, call, counts| {
        if random.once_in(SPOILED) {
            let copy = spoiled(random, &words);
            // also those that are rare in a history
            let shot = Call::Shot(random_options(random));
            let calls = [call, call, call, &Call::Fresh, &Call::Undo, &shot];
            let call = random.choose(&calls);
            lent_call(sine, (random, call), &copy, library, counts)?;
        }
        words = lent_call(sine, (random, call), &words, library, counts)?;
        Ok(())
    })
}

/// Compares a library's calls on lent words with vectors, lines `call = answer`, and returns how
/// many there are; the error tells the first that is answered otherwise.
pub fn compare_card_vectors(sine: &Sine, file: &str, library: LentCall) -> Result<usize, String> {
    let mut card = Card::fresh();
    let mut on_words = |call: &Call, card: &mut Card, buffer: &mut [u8]| {
        let mut words = card.words();
        let answer = library(call, &mut words, buffer);
        *card = Card::from_words(&words).expect("a call leaves a card");
        answer
    };
    let mut taken = 0;
    for line in file.lines().filter(|line| !line.starts_with('#')) {
        let (call, expected) =
            line.split_once(" = ").ok_or_else(|| format!("{line}: no answer"))?;
        match card_line_by(&mut on_words, sine, &mut card, call.as_bytes()) {
            Ok(given) if given == expected => taken += 1,
            given => return Err(format!("{line}: {given:?} given")),
        }
    }
    Ok(taken)
}

/// Makes one call on copies of words and buffer, by this program and by the library, and returns the
/// words after it.
fn lent_call(
    sine: &Sine,
    (random, call): (&mut Random, &Call),
    words: &[i64],
    library: LentCall,
    counts: &mut Counts,
) -> Result<Vec<i64>, String> {
    let all_words = between_spares(random.bits() as i64, words);
    let all_bytes = between_spares(random.bits() as u8, call.buffer());
    let left = |make: LentCall| {
        let (mut words, mut buffer) = (all_words.clone(), all_bytes.clone());
        let answer = make(call, lent(&mut words), lent(&mut buffer));
        (answer, words, buffer)
    };
    let mut expected = left(&mut |call, words, buffer| call_on_words(sine, call, words, buffer));
    let agreed = agreed(call, &expected, &left(library), counts);
    agreed.map_err(|error| format!("on the words {}, {error}", joined(words)))?;
    Ok(lent(&mut expected.1).to_vec())
}

/// Compares a library's calls on a card of its own with this program's, until `count` are made:
/// their answers, the fields and the whole buffer with the spares around it.
pub fn compare_own_cards(sine: &Sine, run: (u64, u64), library: OwnCall) -> Result<Counts, String> {
    let mut card = Card::fresh();
    each_call(sine, run, |random, call, counts| {
        let all_bytes = between_spares(random.bits() as u8, call.buffer());
        let left = |make: OwnCall| {
            let mut buffer = all_bytes.clone();
            let (answer, fields) = make(call, lent(&mut buffer));
            (answer, fields, buffer)
        };
        let expected = left(&mut |call, buffer| {
            (call.answer(sine, &mut card, buffer), card.fields().to_vec())
        });
        agreed(call, &expected, &left(library), counts)
    })
}

/// Takes one call after the other, history after history, each from a fresh card, until `count`
/// are counted.
fn each_call(
    sine: &Sine,
    (seed, count): (u64, u64),
    mut take: impl FnMut(&mut Random, &Call, &mut Counts) -> Result<(), String>,
) -> Result<Counts, String> {
    let mut random = Random::new(seed);
    let mut counts = Counts::default();
    while counts.total() < count {
        take(&mut random, &Call::Fresh, &mut counts)?;
        let calls = random.between(0, CALLS) as u64;
        for call in history(&mut random, sine, false, calls) {
            let is_shot = matches!(call, Call::Shot(_));
            if random.once_in(if is_shot { OTHER_OPTIONS } else { WIDE }) {
                let wide = widened(&mut random, call.clone());
                take(&mut random, &wide, &mut counts)?;
            }
            take(&mut random, &call, &mut counts)?;
        }
    }
    Ok(counts)
}

/// Counts the outcome of a call that left the same to both; an error where it did not.
fn agreed<C: Debug + PartialEq>(
    call: &Call,
    expected: &Left<C>,
    given: &Left<C>,
    counts: &mut Counts,
) -> Result<(), String> {
    if given != expected {
        return Err(format!("{call}: {expected:?} expected, {given:?} given"));
    }
    counts.add(Outcome::of_call(&call.to_string(), &joined(&expected.0)), 1);
    Ok(())
}

/// What is lent, with spares on both sides that must stay as they are.
fn between_spares<T: Copy>(spare: T, content: &[T]) -> Vec<T> {
    [&[spare; SPARES], content, &[spare; SPARES]].concat()
}

/// The part between the spares.
fn lent<T>(all: &mut [T]) -> &mut [T] {
    let end = all.len() - SPARES;
    &mut all[SPARES..end]
}

/// Any number of 64 bits, the ends more often.
fn any_number(random: &mut Random) -> i64 {
    if random.once_in(2) {
        random.choose(&EXTREMES)
    } else {
        any_size(random)
    }
}

/// A call with one of its numbers from all of 64 bits, where it has one, or with other options.
fn widened(random: &mut Random, call: Call) -> Call {
    let first = random.once_in(2);
    let any = any_number(random);
    match call {
        Call::Hear(_, number) if first => Call::Hear(any, number),
        Call::Hear(field, _) => Call::Hear(field, any),
        Call::Read { place, buffer, .. } if first => Call::Read { field: any, place, buffer },
        Call::Read { field, buffer, .. } => Call::Read { field, place: any as usize, buffer },
        Call::Confirm(_) => Call::Confirm(any),
        Call::Shot(_) => Call::Shot(random_options(random)),
        Call::Fresh | Call::Undo => call,
    }
}

/// The words of a card, spoiled in one way; now and then they are a card still.
fn spoiled(random: &mut Random, words: &[i64]) -> Vec<i64> {
    let mut words = words.to_vec();
    // of any field, or of what stood there before the hearing to undo
    let state = random.choose(&[0, 2, 4, 6, 8, 10, 12, 14, 16, 18, 20, HEARING + 1]);
    let sign = random.choose(&[-1, 1]);
    match random.between(0, 7) {
        0 => words[state] = random.choose(&NO_STATES),
        1 => words[state..state + 2]
            .copy_from_slice(&[random.between(1, 3), sign * (LARGEST_HEARD as i64 + 1)]),
        2 => words[state..state + 2].copy_from_slice(&[0, sign * random.between(1, 99)]),
        3 => words[HEARING] = random.choose(&NO_FIELDS),
        4 => {
            words[HEARING] = 0;
            words[HEARING + 1] = random.between(0, 3);
            words[HEARING + 2] = random.between(-1, 1);
        }
        5 => words.resize(random.choose(&NO_COUNTS), 0),
        6 => words.fill_with(|| random.bits() as i64),
        _ => words[random.between(0, WORDS as i64 - 1) as usize] = random.between(-1, 12),
    }
    words
}
