//! Compares the book's static library, called as it is and through the safe wrapper, with the
//! second program on random shots, one by one and many in a call, pointings, instants by both
//! editions of the Sun's series, choices and calls on cards, the shots with random options, and with
//! the outside vectors. Fails where they differ or an outcome is reached fewer than `LEAST` times.
//!
//! usage: compare SEED COUNT

// The wrapper's own declarations: it keeps to itself what stands with a refusal.
#[path = "../../capi/rust/src/ffi.rs"]
mod ffi;

use fieldbook::{Card, Instant, Numbers, Refusal, ShotAngles};
use second::call::Call;
use second::card::Field;
use second::compare::{compare_asked, compare_library, compare_longitudes, compare_vectors, Way};
use second::counts::LEAST;
use second::lent_cards::{
    compare_card_vectors, compare_lent_cards, compare_own_cards, outcomes_of_lent_cards,
    outcomes_of_own_cards,
};
use second::many_shots::{compare_many_shots, ManyShots};
use second::options::Options;
use second::question::{Choice, Editions, LibraryAnswer, Pointing, Question, Shot};
use second::sine::Sine;
use std::error::Error;
use std::ptr;

/// Options as the static library takes them.
fn library_options(options: Options) -> ffi::Options {
    ffi::Options { edition: options.edition }
}

/// Options as the wrapper takes them.
fn wrapped_options(options: Options) -> fieldbook::Options {
    fieldbook::Options { edition: options.edition }
}

/// The shot of the static library.
fn shot(shot: &Shot) -> LibraryAnswer<Shot> {
    let a = ffi::shot(shot.fields, library_options(shot.options));
    (a.refusal, [a.azimuth, a.zenith_distance, a.hour_angle, a.longitude])
}

/// The wrapper's angles of a shot.
fn angles(a: ShotAngles) -> [u64; 4] {
    [a.azimuth, a.zenith_distance, a.hour_angle, a.longitude]
}

/// The wrapper's answer to a shot as a library's.
fn library_answer(answer: Result<ShotAngles, Refusal>) -> LibraryAnswer<Shot> {
    match answer {
        Ok(answered) => (0, angles(answered)),
        Err(refusal) => (refusal as u64, Shot::REFUSED),
    }
}

/// The shot through the wrapper.
fn wrapped_shot(shot: &Shot) -> LibraryAnswer<Shot> {
    library_answer(fieldbook::shot(&Numbers::from(shot.fields), wrapped_options(shot.options)))
}

/// Many shots of the static library.
fn many_shots(rows: &[i64], words: &mut [u64], options: Options) -> u64 {
    ffi::shots(rows, words, library_options(options))
}

/// Many shots through the wrapper, as words: it takes whole rows, and as many as there is room for.
fn wrapped_many_shots(rows: &[i64], words: &mut [u64], options: Options) -> u64 {
    let fields = rows.chunks_exact(11).take(words.len() / 5);
    let numbers: Vec<Numbers> =
        fields.map(|row| <[i64; 11]>::try_from(row).expect("eleven numbers").into()).collect();
    let answers = fieldbook::shots(&numbers, wrapped_options(options));
    for (words, answer) in words.chunks_exact_mut(5).zip(&answers) {
        let (refusal, angles) = library_answer(*answer);
        words[0] = refusal;
        words[1..].copy_from_slice(&angles);
    }
    answers.len() as u64
}

/// The pointing of the static library.
fn pointing(pointing: &Pointing) -> LibraryAnswer<Pointing> {
    let options = library_options(pointing.options);
    let answer = ffi::pointing(pointing.fields, pointing.angle, options);
    (answer.refusal, [answer.mark])
}

/// The pointing through the wrapper.
fn wrapped_pointing(pointing: &Pointing) -> LibraryAnswer<Pointing> {
    let options = wrapped_options(pointing.options);
    match fieldbook::pointing(&Numbers::from(pointing.fields), pointing.angle, options) {
        Ok(mark) => (0, [mark]),
        Err(refusal) => (refusal as u64, Pointing::REFUSED),
    }
}

/// Both editions of the static library.
fn editions(editions: &Editions) -> LibraryAnswer<Editions> {
    let a = ffi::editions(editions.fields);
    (a.refusal, [a.short_edition, a.full_edition, a.apart, a.bound])
}

/// Both editions through the wrapper.
fn wrapped_editions(editions: &Editions) -> LibraryAnswer<Editions> {
    match fieldbook::editions(&Instant::from(editions.fields)) {
        Ok(a) => (0, [a.short, a.full, a.apart, a.bound]),
        Err(refusal) => (refusal as u64, Editions::REFUSED),
    }
}

/// The choice of the static library.
fn choice(choice: &Choice) -> LibraryAnswer<Choice> {
    let answer = ffi::choice(&choice.first, &choice.second);
    (answer.refusal, [answer.list, answer.count])
}

/// The choice through the wrapper; which list it is, is told by where the slice lies and by its
/// length, 0 for neither of the caller's own.
fn wrapped_choice(choice: &Choice) -> LibraryAnswer<Choice> {
    match fieldbook::choose(&choice.first, &choice.second) {
        Ok(chosen) => {
            let is_own = |list: &[i64]| ptr::eq(list, chosen);
            let list = match (is_own(&choice.first), is_own(&choice.second)) {
                (true, _) => 1,
                (_, true) => 2,
                _ => 0,
            };
            (0, [list, chosen.len() as u64])
        }
        Err(refusal) => (refusal as u64, Choice::REFUSED),
    }
}

/// The static library's call on a card in lent words.
fn card_call(call: &Call, card: &mut [i64], buffer: &mut [u8]) -> Vec<u64> {
    match *call {
        Call::Fresh => vec![ffi::card_fresh(card)],
        Call::Hear(field, number) => vec![ffi::card_hear(card, field, number)],
        Call::Read { field, place, .. } => {
            let answer = ffi::card_read(card, field, buffer, place);
            vec![answer.refusal, answer.length]
        }
        Call::Confirm(field) => vec![ffi::card_confirm(card, field)],
        Call::Undo => vec![ffi::card_undo(card)],
        Call::Shot(options) => {
            let a = ffi::card_shot(card, library_options(options));
            vec![a.refusal, a.azimuth, a.zenith_distance, a.hour_angle, a.longitude]
        }
    }
}

/// The wrapper's call on a card, whose words it keeps to itself, and the fields it shows then.
fn wrapped_card_call(card: &mut Card, call: &Call, buffer: &mut [u8]) -> (Vec<u64>, Vec<Field>) {
    let values = match *call {
        Call::Fresh => {
            *card = Card::fresh();
            Ok(vec![])
        }
        Call::Hear(field, number) => card.hear(field, number).map(|()| vec![]),
        Call::Read { field, place, .. } => {
            card.read(field, buffer, place).map(|length| vec![length as u64])
        }
        Call::Confirm(field) => card.confirm(field).map(|()| vec![]),
        Call::Undo => card.undo().map(|()| vec![]),
        Call::Shot(options) => {
            card.shot(wrapped_options(options)).map(|answered| angles(answered).to_vec())
        }
    };
    let answer = call.answer_words(values.map_err(|refusal| refusal as u64));
    // beyond the eleven too, where it must show none
    let fields = (0..=12).filter_map(|field| card.field(field));
    (answer, fields.map(second_field).collect())
}

/// The wrapper's field as one of the second program.
fn second_field(field: fieldbook::Field) -> Field {
    match field {
        fieldbook::Field::Empty => Field::Empty,
        fieldbook::Field::Heard(number) => Field::Heard(number),
        fieldbook::Field::Read(number) => Field::Read(number),
        fieldbook::Field::Confirmed(number) => Field::Confirmed(number),
    }
}

/// The outside vectors of a kind of question.
enum Vectors {
    /// Of the rules as they stand.
    Current(&'static str),
    /// Older than request 5: with the second program's answers.
    Older(&'static str),
}

/// Compares one kind of question on random ones.
fn random_agree<Q: Question>(
    name: &str,
    (seed, count): (u64, u64),
    ways: &[Way<Q>],
) -> Result<(), String> {
    let counts = compare_library(&Sine::new(), (seed, count), ways)?;
    counts.all_reached(&Q::outcomes(), LEAST)?;
    println!("{count} {name} of the static library agree: {counts}");
    Ok(())
}

/// Compares one kind of question on random ones and on the outside vectors.
fn agrees<Q: Question>(
    name: &str,
    run: (u64, u64),
    vectors: Vectors,
    library: fn(&Q) -> LibraryAnswer<Q>,
    wrapper: fn(&Q) -> LibraryAnswer<Q>,
) -> Result<(), String> {
    let ways: [Way<Q>; 2] = [("the static library", &library), ("its wrapper", &wrapper)];
    random_agree(name, run, &ways)?;
    let (lines, answers) = match vectors {
        Vectors::Current(file) => (compare_vectors(file, &ways)?, "agree"),
        Vectors::Older(file) => {
            (compare_asked(&Sine::new(), file, &ways)?, "agree with the second program")
        }
    };
    println!("{lines} {name} of the outside vectors {answers}, through the static library");
    Ok(())
}

/// Compares both editions on random instants, and on the longitudes of the outside vectors.
fn editions_agree(run: (u64, u64)) -> Result<(), String> {
    let ways: [Way<Editions>; 2] =
        [("the static library", &editions), ("its wrapper", &wrapped_editions)];
    random_agree("instants by both editions", run, &ways)?;
    let vectors = include_str!("../../second/tests/data/longitude.txt");
    let lines = compare_longitudes(vectors, &ways)?;
    println!("{lines} longitudes of the outside vectors agree, through the static library");
    Ok(())
}

/// Compares many shots in a call on random ones.
fn many_shots_agree((seed, count): (u64, u64)) -> Result<(), String> {
    let sine = Sine::new();
    let libraries: [(&str, ManyShots); 2] =
        [("static library", &many_shots), ("wrapper", &wrapped_many_shots)];
    for (name, library) in libraries {
        let counts = compare_many_shots(&sine, (seed, count), library)?;
        counts.all_reached(&Shot::outcomes(), LEAST)?;
        println!("{} shots of the {name}, many in a call, agree: {counts}", counts.total());
    }
    Ok(())
}

/// Compares calls on cards: on words lent to the static library, good and spoiled, and the calls of
/// the outside vectors; and on a card of the wrapper.
fn cards_agree(run: (u64, u64)) -> Result<(), String> {
    let sine = Sine::new();
    let counts = compare_lent_cards(&sine, run, &mut card_call)?;
    counts.all_reached(&outcomes_of_lent_cards(), LEAST)?;
    println!("{} calls of the static library on cards agree: {counts}", counts.total());
    let vectors = include_str!("../../second/tests/data/card.txt");
    let calls = compare_card_vectors(&sine, vectors, &mut card_call)?;
    println!("{calls} calls on cards of the outside vectors agree, through the static library");
    let mut card = Card::fresh();
    let counts = compare_own_cards(&sine, run, &mut |call, buffer| {
        wrapped_card_call(&mut card, call, buffer)
    })?;
    counts.all_reached(&outcomes_of_own_cards(), LEAST)?;
    println!("{} calls of the wrapper on cards agree: {counts}", counts.total());
    Ok(())
}

fn main() -> Result<(), Box<dyn Error>> {
    let words: Vec<String> = std::env::args().skip(1).collect();
    let [seed, count] = words.as_slice() else {
        return Err("usage: compare SEED COUNT".into());
    };
    let run = (seed.parse()?, count.parse()?);
    let vectors = Vectors::Current(include_str!("../../second/tests/data/shot.txt"));
    agrees("shots", run, vectors, shot, wrapped_shot)?;
    many_shots_agree(run)?;
    let vectors = Vectors::Older(include_str!("../../second/tests/data/pointing.txt"));
    agrees("pointings", run, vectors, pointing, wrapped_pointing)?;
    editions_agree(run)?;
    let vectors = Vectors::Current(include_str!("../../second/tests/data/choice.txt"));
    agrees("choices", run, vectors, choice, wrapped_choice)?;
    cards_agree(run)?;
    Ok(())
}
