//! The comparison itself: it reaches every refusal, agrees with this program and finds
//! another that differs.

mod changed_library;

use changed_library::{changed, COUNT};
use second::call::Call;
use second::card::{Card, Field, WORDS};
use second::compare::{
    batch_answers, call_answers, compare_vectors, equal_outputs, outcomes_of_a_batch,
    outcomes_of_calls, outcomes_of_sessions, random_batch, random_lines, random_runs,
    random_sessions, Way,
};
use second::counts::{Counts, Outcome, LEAST};
use second::digits::LONGEST;
use second::lent_cards::{
    call_on_words, compare_card_vectors, compare_lent_cards, compare_own_cards,
    outcomes_of_lent_cards, outcomes_of_own_cards, NO_CARD,
};
use second::many_shots::compare_many_shots;
use second::options::Options;
use second::question::{BatchQuestion, Choice, Editions, Pointing, Question, Shot};
use second::random_calls::{random_calls, Start};
use second::replay::card_line;
use second::session;
use second::sine::Sine;
use std::cell::Cell;

/// For what is rare in a history of calls.
const CARDS: u64 = 200_000;

/// A library that answers as this program does agrees, and every outcome is reached.
fn reaches_every_outcome<Q: Question>() {
    let counts = changed::<Q>(|_, _| {}).unwrap();
    assert_eq!(counts.all_reached(&Q::outcomes(), LEAST), Ok(()));
    assert_eq!(counts.total(), COUNT);
}

#[test]
fn libraries_reach_every_outcome() {
    reaches_every_outcome::<Shot>();
    reaches_every_outcome::<Pointing>();
    reaches_every_outcome::<Editions>();
    reaches_every_outcome::<Choice>();
}

/// The answers of many shots, worked one by one: each written to its words, and how many there are.
fn one_by_one(sine: &Sine, rows: &[i64], words: &mut [u64], options: Options) -> u64 {
    let mut answered = 0;
    for (row, words) in rows.chunks_exact(11).zip(words.chunks_exact_mut(5)) {
        let shot = Shot { fields: row.try_into().expect("eleven numbers"), options };
        let (refusal, angles) = Shot::as_library(shot.answer(sine));
        words[0] = refusal;
        words[1..].copy_from_slice(&angles);
        answered += 1;
    }
    answered
}

/// The comparison of many shots with a library that works them one by one, but for one change of
/// the words behind all answers and of the count.
fn changed_behind(change: impl Fn(&[i64], &mut [u64], &mut u64)) -> Result<Counts, String> {
    let sine = Sine::new();
    let library = |rows: &[i64], words: &mut [u64], options: Options| {
        let mut answered = one_by_one(&sine, rows, words, options);
        change(rows, &mut words[5 * answered as usize..], &mut answered);
        answered
    };
    compare_many_shots(&sine, (1, COUNT), &library)
}

/// The same with a library that takes some options for others.
fn options_taken_for(change: impl Fn(Options) -> Options) -> Result<Counts, String> {
    let sine = Sine::new();
    compare_many_shots(&sine, (1, COUNT), &|rows, words, options| {
        one_by_one(&sine, rows, words, change(options))
    })
}

#[test]
fn many_shots_reach_every_outcome() {
    let counts = changed_behind(|_, _, _| {}).unwrap();
    assert_eq!(counts.all_reached(&Shot::outcomes(), LEAST), Ok(()));
    assert!(counts.total() >= COUNT);
}

#[test]
fn many_shots_that_differ_are_found() {
    let room_cleared = changed_behind(|_, behind, _| behind.fill(0));
    assert!(room_cleared.is_err());
    let left_over_counted = changed_behind(|rows, _, answered| {
        *answered += u64::from(rows.len() % 11 != 0);
    });
    assert!(left_over_counted.is_err());
    let all_rows_counted = changed_behind(|rows, _, answered| *answered = rows.len() as u64 / 11);
    assert!(all_rows_counted.is_err());
    assert!(options_taken_for(|options| options).is_ok());
    assert!(options_taken_for(|_| Options::default()).is_err());
    for change in EDITIONS_TAKEN_FOR {
        let other_edition =
            options_taken_for(|options| Options { edition: change(options.edition) });
        assert!(other_edition.is_err());
    }
}

/// Ways to take an edition for another: the other one, an unknown one for a neighbour, or what is
/// left of it in few bits.
const EDITIONS_TAKEN_FOR: [fn(i64) -> i64; 8] = [
    |edition| if edition == 2 { 1 } else { edition },
    |edition| if edition == 1 { 2 } else { edition },
    |edition| if edition == 0 { 1 } else { edition },
    |edition| if edition == 3 { 2 } else { edition },
    |edition| if edition == -1 { 1 } else { edition },
    |edition| i64::from(edition as u8),
    |edition| i64::from(edition as i32),
    |edition| edition & i64::MAX,
];

/// An edition that is taken for another is found by shots, by pointings and by shots from cards.
#[test]
fn an_edition_taken_for_another_is_found() {
    let sine = Sine::new();
    for change in EDITIONS_TAKEN_FOR {
        let by = |options: Options| Options { edition: change(options.edition) };
        let shots = changed::<Shot>(|shot, answer| {
            let taken = Shot { options: by(shot.options), ..*shot };
            *answer = Shot::as_library(taken.answer(&sine));
        });
        assert!(shots.is_err());
        let pointings = changed::<Pointing>(|pointing, answer| {
            let taken = Pointing { options: by(pointing.options), ..*pointing };
            *answer = Pointing::as_library(taken.answer(&sine));
        });
        assert!(pointings.is_err());
        let cards = compare_lent_cards(&sine, (1, CARDS), &mut |call, words, buffer| match *call {
            Call::Shot(options) => call_on_words(&sine, &Call::Shot(by(options)), words, buffer),
            _ => call_on_words(&sine, call, words, buffer),
        });
        assert!(cards.is_err());
    }
}

#[test]
fn a_library_that_differs_is_found() {
    let late = changed::<Shot>(|shot, (number, angles)| {
        angles[3] += u64::from(*number == 0 && shot.fields[0] == 2049);
    });
    assert!(late.is_err());
    let refused_with_an_angle = changed::<Shot>(|_, (number, angles)| {
        angles[3] += u64::from(*number == 8);
    });
    assert!(refused_with_an_angle.is_err());
    let delta_t_before_dut1 = changed::<Shot>(|shot, (number, _)| {
        if *number == 4 && !(0..=120_000).contains(&shot.fields[10]) {
            *number = 17;
        }
    });
    assert!(delta_t_before_dut1.is_err());
    let delta_t_after_latitude = changed::<Shot>(|shot, (number, _)| {
        if *number == 17 && shot.fields[7].abs() == 3_204_001 {
            *number = 5;
        }
    });
    assert!(delta_t_after_latitude.is_err());
    let is_known = |shot: &Shot| (1..=2).contains(&shot.options.edition);
    let edition_before_body = changed::<Shot>(|shot, (number, _)| {
        if *number == 6 && !is_known(shot) {
            *number = 19;
        }
    });
    assert!(edition_before_body.is_err());
    let sine = Sine::new();
    for behind in [7, 8] {
        let edition_behind = changed::<Shot>(|shot, (number, _)| {
            let known = Shot { options: Options::default(), ..*shot };
            if *number == 19 && Shot::as_library(known.answer(&sine)).0 == behind {
                *number = behind;
            }
        });
        assert!(edition_behind.is_err());
    }
    let no_edition_of_polaris = changed::<Shot>(|shot, answer| {
        if answer.0 == 19 && shot.fields[9] == 2 {
            *answer = Shot::as_library(Shot { options: Options::default(), ..*shot }.answer(&sine));
        }
    });
    assert!(no_edition_of_polaris.is_err());
    let polaris_refused = changed::<Shot>(|shot, answer| {
        if answer.0 == 0 && shot.fields[9] == 2 && shot.options.edition == 2 {
            *answer = (19, Shot::REFUSED);
        }
    });
    assert!(polaris_refused.is_err());
    let angle_before_edition = changed::<Pointing>(|pointing, (number, _)| {
        if *number == 19 && !(0..12_960_000_000).contains(&pointing.angle) {
            *number = 15;
        }
    });
    assert!(angle_before_edition.is_err());
    let turn_for_north = changed::<Pointing>(|_, (number, mark)| {
        mark[0] += if *number == 0 && mark[0] == 0 { 12_960_000_000 } else { 0 };
    });
    assert!(turn_for_north.is_err());
    let longest_refused = changed::<Choice>(|choice, answer| {
        if answer.0 == 0 && choice.second.len() == 64 {
            *answer = (16, [1, 0]);
        }
    });
    assert!(longest_refused.is_err());
    let last_not_tested = changed::<Choice>(|choice, answer| {
        if answer.0 == 15 && choice.first.last() == Some(&i64::MAX) {
            *answer = (0, [2, choice.second.len() as u64]);
        }
    });
    assert!(last_not_tested.is_err());
}

/// This program's answers to a random batch reach every outcome, and 14.
fn batch_reaches_every_outcome<Q: BatchQuestion>() {
    let sine = Sine::new();
    let counts = Counts::of_lines(&batch_answers::<Q>(&sine, &random_batch::<Q>(&sine, 1, COUNT)));
    assert_eq!(counts.all_reached(&outcomes_of_a_batch::<Q>(), LEAST), Ok(()));
    assert_eq!(counts.total(), COUNT);
}

#[test]
fn batches_reach_every_outcome() {
    batch_reaches_every_outcome::<Shot>();
    batch_reaches_every_outcome::<Pointing>();
    batch_reaches_every_outcome::<Editions>();
}

/// Of the answered lines many lack the first edition, many name it and many the second; other lines
/// have too few numbers or too many.
fn batch_has_lines_of_each_length<Q: BatchQuestion>(fewest: usize) {
    let sine = Sine::new();
    let input = random_batch::<Q>(&sine, 1, COUNT);
    let answers = batch_answers::<Q>(&sine, &input);
    let (mut without, mut first, mut second, mut wrong) = (0, 0, 0, 0);
    let [input, answers] = [input, answers].map(|text| String::from_utf8(text).unwrap());
    for (line, answer) in input.lines().zip(answers.lines()) {
        let numbers: Vec<&str> = line.split(' ').collect();
        match numbers.get(fewest..) {
            Some([]) => without += u64::from(answer != "no 14"),
            Some(["1"]) => first += u64::from(answer != "no 14"),
            Some(["2"]) => second += u64::from(answer != "no 14"),
            Some([_]) => {}
            _ => {
                assert_eq!(answer, "no 14", "{line}");
                wrong += 1;
            }
        }
    }
    assert!([without, first, second].iter().all(|&count| count > 1_000));
    assert!(wrong > 10);
}

#[test]
fn batches_have_lines_of_each_length() {
    batch_has_lines_of_each_length::<Shot>(11);
    batch_has_lines_of_each_length::<Pointing>(12);
}

#[test]
fn vectors_that_differ_are_found() {
    let sine = Sine::new();
    let ways: [Way<Choice>; 1] = [("right", &|choice| Choice::as_library(choice.answer(&sine)))];
    assert_eq!(compare_vectors("# two\n1 5 1 5 = 0 1 1\n0 1 5 = 16 1 0\n", &ways), Ok(2));
    for file in ["1 5 1 5 = 0 2 1", "1 5 1 5 = 0 1 1 0", "1 5 1 5", "1 5 1 = 14 1 0"] {
        assert!(compare_vectors(file, &ways).is_err());
    }
}

/// The counts of this program's answers to random sessions.
fn sessions(sine: &Sine, seed: u64) -> Counts {
    let mut counts = Counts::default();
    for (seed, lines) in random_sessions(seed, COUNT) {
        let input = random_lines(sine, seed, lines);
        let mut output = Vec::new();
        session::run(sine, input.as_slice(), &mut output).unwrap();
        let one = Counts::of_lines(&output);
        assert_eq!(one.total(), lines);
        counts.add_all(&one);
    }
    counts
}

#[test]
fn sessions_reach_every_refusal() {
    let sine = Sine::new();
    for seed in 1..=4 {
        let counts = sessions(&sine, seed);
        assert_eq!(counts.all_reached(&outcomes_of_sessions(), 1), Ok(()), "seed {seed}");
        assert!(counts.of(Outcome::Refused(10)) >= 100, "seed {seed}");
        assert_eq!(counts.total(), COUNT);
    }
}

#[test]
fn calls_reach_every_refusal() {
    let sine = Sine::new();
    for start in [Start::Fresh, Start::Old] {
        let mut counts = Counts::default();
        for (seed, lines) in random_runs(1, COUNT) {
            let calls = random_calls(&sine, start, seed, lines);
            counts.add_all(&Counts::of_calls(&calls, &call_answers(&sine, &calls)));
        }
        assert_eq!(counts.all_reached(&outcomes_of_calls(), 1), Ok(()), "{start:?}");
        assert_eq!(counts.total(), COUNT);
    }
}

/// From the old start, shots are answered though nothing was heard for DUT1.
#[test]
fn shots_with_the_assumed_dut1_are_reached() {
    let sine = Sine::new();
    let calls = random_calls(&sine, Start::Old, 1, COUNT);
    let answers = String::from_utf8(call_answers(&sine, &calls)).unwrap();
    let calls = String::from_utf8(calls).unwrap();
    let (mut heard, mut answered) = (false, 0);
    for (call, answer) in calls.lines().zip(answers.lines()) {
        heard = call != "old" && (heard || call.starts_with("hear 7 "));
        answered += u64::from(!heard && Outcome::of_call(call, answer) == Outcome::Answered);
    }
    assert!(answered > 0);
}

#[test]
fn calls_are_counted_by_their_form() {
    let calls = b"fresh\nhear 1 5\nshot\nread 1 0 00\nread 1 0 -\nshot\nundo\nundo\n";
    let answers =
        b"| e\n0 | h5\n0 1 2 3 4 | c5\n0 1 35 | r5\n11 0 - | h5\n1 0 0 0 0 | e\n0 | e\n18 | e\n";
    let counts = Counts::of_calls(calls, answers);
    assert_eq!(counts.to_string(), "answered 1, undone 1, no 1 1, no 11 1, no 18 1, others 3");
    let by_edition_2 = Call::Shot(Options { edition: 2 }).to_string();
    assert_eq!(Outcome::of_call(&by_edition_2, "0 1 2 3 4"), Outcome::Answered);
}

/// The words of a card.
type Words = [i64; WORDS];

/// The comparison of this program's answers to random calls with those of a card of which, after
/// each call, the words are changed; the change is told the call, its answer and the words before.
fn changed_after_calls(change: impl Fn(&str, &str, &Words, &mut Words)) -> Result<(), String> {
    let sine = Sine::new();
    let calls = random_calls(&sine, Start::Old, 1, COUNT);
    let (mut card, mut given) = (Card::fresh(), String::new());
    for call in String::from_utf8_lossy(&calls).lines() {
        let before = card.words();
        let answer = card_line(&sine, &mut card, call.as_bytes()).expect("a call");
        given += &format!("{answer}\n");
        let mut words = card.words();
        change(call, &answer, &before, &mut words);
        card = Card::from_words(&words).expect("a card");
    }
    equal_outputs(&call_answers(&sine, &calls), given.as_bytes())
}

/// The word of the field whose hearing can be undone, the first of those that tell of it.
const HEARING: usize = 22;

#[test]
fn a_card_that_differs_is_found() {
    let is_undone = |call: &str, before: &Words| call == "undo" && before[HEARING] != 0;
    assert_eq!(changed_after_calls(|_, _, _, _| {}), Ok(()));
    let undone_twice = changed_after_calls(|call, _, before, words| {
        if is_undone(call, before) {
            words[HEARING..].copy_from_slice(&before[HEARING..]);
        }
    });
    assert!(undone_twice.is_err());
    let undone_to_empty = changed_after_calls(|call, _, before, words| {
        if is_undone(call, before) {
            words[2 * before[HEARING] as usize - 2..][..2].fill(0);
        }
    });
    assert!(undone_to_empty.is_err());
    let undone_to_heard = changed_after_calls(|call, _, before, words| {
        if is_undone(call, before) {
            let state = &mut words[2 * before[HEARING] as usize - 2];
            *state = 1.min(*state);
        }
    });
    assert!(undone_to_heard.is_err());
    let before_hearing = Cell::new([0; WORDS]);
    let others_undone = changed_after_calls(|call, answer, before, words| {
        if call.starts_with("hear ") && answer.starts_with("0 ") {
            before_hearing.set(*before);
        }
        if is_undone(call, before) {
            words[..HEARING].copy_from_slice(&before_hearing.get()[..HEARING]);
        }
    });
    assert!(others_undone.is_err());
    for state in [2, 3] {
        let ended_by_state = changed_after_calls(|_, _, _, words| {
            if words[HEARING] != 0 && words[2 * words[HEARING] as usize - 2] == state {
                words[HEARING..].fill(0);
            }
        });
        assert!(ended_by_state.is_err());
    }
    let ended_by_refusal = changed_after_calls(|call, answer, _, words| {
        if call.starts_with("hear ") && !answer.starts_with("0 ") {
            words[HEARING..].fill(0);
        }
    });
    assert!(ended_by_refusal.is_err());
    let same_number_not_counted = changed_after_calls(|call, _, before, words| {
        if call.starts_with("hear ") && words[..HEARING] == before[..HEARING] {
            words[HEARING..].copy_from_slice(&before[HEARING..]);
        }
    });
    assert!(same_number_not_counted.is_err());
    let kept_by_start = changed_after_calls(|call, _, before, words| {
        if call == "old" {
            words[HEARING..].copy_from_slice(&before[HEARING..]);
        }
    });
    assert!(kept_by_start.is_err());
}

/// The comparison of cards in lent words with a library that does as this program does, and then
/// one thing more; this is told the call and the words before.
fn changed_after(
    sine: &Sine,
    change: impl Fn(&Call, &[i64], &mut Vec<u64>, &mut [i64], &mut [u8]),
) -> Result<Counts, String> {
    compare_lent_cards(sine, (1, COUNT), &mut |call, words, buffer| {
        let before = words.to_vec();
        let mut answer = call_on_words(sine, call, words, buffer);
        change(call, &before, &mut answer, words, buffer);
        answer
    })
}

/// The same with a library that takes some words for others.
fn taken_for(sine: &Sine, change: impl Fn(&mut Vec<i64>)) -> Result<Counts, String> {
    compare_lent_cards(sine, (1, COUNT), &mut |call, words, buffer| {
        let mut taken = words.to_vec();
        change(&mut taken);
        let answer = call_on_words(sine, call, &mut taken, buffer);
        if answer[0] == 0 {
            words.iter_mut().zip(taken).for_each(|(word, taken)| *word = taken);
        }
        answer
    })
}

#[test]
fn lent_cards_reach_every_outcome() {
    let counts = changed_after(&Sine::new(), |_, _, _, _, _| {}).unwrap();
    assert_eq!(counts.all_reached(&outcomes_of_lent_cards(), 1), Ok(()));
    assert!(counts.total() >= COUNT);
}

#[test]
fn lent_cards_that_differ_are_found() {
    let sine = Sine::new();
    let undone_to_empty = changed_after(&sine, |call, before, answer, words, _| {
        if *call == Call::Undo && answer[0] == 0 {
            words[2 * before[HEARING] as usize - 2..][..2].fill(0);
        }
    });
    assert!(undone_to_empty.is_err());
    let undone_twice = changed_after(&sine, |call, before, answer, words, _| {
        if *call == Call::Undo && answer[0] == 0 {
            words[HEARING..].copy_from_slice(&before[HEARING..]);
        }
    });
    assert!(undone_twice.is_err());
    let refused_hearing_kept = changed_after(&sine, |call, before, answer, words, _| match *call {
        Call::Hear(field, _) if answer[0] == 13 => {
            words[HEARING] = field;
            words[HEARING + 1..].copy_from_slice(&before[2 * field as usize - 2..][..2]);
        }
        _ => {}
    });
    assert!(refused_hearing_kept.is_err());
    for refusal in [1, 9, 10, 11, 12, 13, 18, 19, NO_CARD] {
        let refused_and_written = changed_after(&sine, |_, _, answer, words, _| {
            if answer[0] == refusal {
                words.iter_mut().take(1).for_each(|word| *word ^= 1);
            }
        });
        assert!(refused_and_written.is_err());
    }
    for refusal in [1, 9, 10, 11, 19, NO_CARD] {
        let refused_with_a_value = changed_after(&sine, |_, _, answer, _, _| {
            if answer[0] == refusal {
                answer[1..].fill(1);
            }
        });
        assert!(refused_with_a_value.is_err());
    }
    let shot_writes = changed_after(&sine, |call, _, answer, words, _| {
        if matches!(call, Call::Shot(_)) && answer[0] == 0 {
            words[HEARING..].fill(0);
        }
    });
    assert!(shot_writes.is_err());
    let edition_before_fields = changed_after(&sine, |call, _, answer, _, _| match *call {
        Call::Shot(Options { edition }) if answer[0] == 1 && !(1..=2).contains(&edition) => {
            answer[0] = 19;
        }
        _ => {}
    });
    assert!(edition_before_fields.is_err());
    let fresh_tests_words = changed_after(&sine, |call, before, answer, words, _| {
        if *call == Call::Fresh && Card::from_words(before).is_none() {
            answer[0] = NO_CARD;
            words.copy_from_slice(before);
        }
    });
    assert!(fresh_tests_words.is_err());
}

#[test]
fn lent_buffers_that_differ_are_found() {
    let sine = Sine::new();
    let written_beyond_its_text = changed_after(&sine, |call, _, answer, _, buffer| match *call {
        Call::Read { place, .. } if answer[0] == 0 => {
            let behind = &mut buffer[place + answer[1] as usize..];
            behind.iter_mut().take(1).for_each(|byte| *byte ^= 1);
        }
        _ => {}
    });
    assert!(written_beyond_its_text.is_err());
    let place_that_wraps = changed_after(&sine, |call, _, answer, _, _| match *call {
        Call::Read { place, .. } if answer[0] == 11 && place.checked_add(LONGEST).is_none() => {
            *answer = vec![0, 1];
        }
        _ => {}
    });
    assert!(place_that_wraps.is_err());
    for refusal in [9, 10, 11, NO_CARD] {
        let refused_and_cleared = changed_after(&sine, |_, _, answer, _, buffer| {
            if answer[0] == refusal {
                buffer.fill(0);
            }
        });
        assert!(refused_and_cleared.is_err());
    }
}

/// Each way in which words are no card is tried.
#[test]
fn words_taken_for_a_card_are_found() {
    let sine = Sine::new();
    assert!(taken_for(&sine, |_| {}).is_ok());
    let changes: [fn(&mut i64, &mut i64); 5] = [
        |state, _| *state -= i64::from(*state == 4),
        |state, _| *state &= 3,
        |_, number| *number -= i64::from(*number == 10_000_000),
        |_, number| *number += i64::from(*number == -10_000_000),
        |state, number| *number *= i64::from(*state != 0),
    ];
    for state in [0, 20, HEARING + 1] {
        for change in changes {
            let field_taken = taken_for(&sine, |words| {
                if let Some([state, number]) = words.get_mut(state..state + 2) {
                    change(state, number);
                }
            });
            assert!(field_taken.is_err());
        }
    }
    for no_field in [-1, 12, i64::MIN, i64::MAX] {
        let kept_nowhere = taken_for(&sine, |words| {
            if words.get(HEARING) == Some(&no_field) {
                words[HEARING..].fill(0);
            }
        });
        assert!(kept_nowhere.is_err());
    }
    let nothing_kept = taken_for(&sine, |words| {
        if words.get(HEARING) == Some(&0) {
            words[HEARING..].fill(0);
        }
    });
    assert!(nothing_kept.is_err());
    for count in [0, WORDS - 1, WORDS + 1] {
        let other_count = taken_for(&sine, |words| {
            if words.len() == count {
                words.resize(WORDS, 0);
            }
        });
        assert!(other_count.is_err());
    }
}

/// The comparison with a library that keeps its card to itself and then changes it, or what it
/// shows of it.
fn own_cards(
    sine: &Sine,
    change: impl Fn(&Call, &Card, &mut Card),
    show: impl Fn(&Card) -> Vec<Field>,
) -> Result<Counts, String> {
    let mut card = Card::fresh();
    compare_own_cards(sine, (1, COUNT), &mut |call, buffer| {
        let before = card.clone();
        let answer = call.answer(sine, &mut card, buffer);
        change(call, &before, &mut card);
        (answer, show(&card))
    })
}

#[test]
fn own_cards_are_compared_by_their_fields() {
    let sine = Sine::new();
    let fields = |card: &Card| card.fields().to_vec();
    let counts = own_cards(&sine, |_, _, _| {}, fields).unwrap();
    assert_eq!(counts.all_reached(&outcomes_of_own_cards(), 1), Ok(()));
    assert_eq!(counts.of(Outcome::Refused(NO_CARD)), 0);
    assert!(counts.total() >= COUNT);
    let not_undone = |call: &Call, before: &Card, card: &mut Card| {
        if *call == Call::Undo {
            *card = before.clone();
        }
    };
    assert!(own_cards(&sine, not_undone, fields).is_err());
    assert!(own_cards(&sine, |_, _, _| {}, |card| card.fields()[..10].to_vec()).is_err());
}

#[test]
fn an_outcome_reached_too_rarely_is_found() {
    let expected = Choice::outcomes();
    for &rare in &expected {
        let mut counts = Counts::default();
        for &outcome in &expected {
            counts.add(outcome, if outcome == rare { 99 } else { 100 });
        }
        assert_eq!(counts.all_reached(&expected, 99), Ok(()));
        assert!(counts.all_reached(&expected, 100).is_err());
        assert!(counts.all_reached(&[Outcome::Answered], 1).is_err());
        counts.add(rare, 1);
        assert_eq!(counts.all_reached(&expected, 100), Ok(()));
    }
}

#[test]
fn lines_are_counted_by_their_form() {
    let output =
        b"az 1 zd 2\nmark 3\nno 15\nshort 4 full 5 apart 1 bound 9\nno 1\nok\n5 0\nno 15\n";
    let counts = Counts::of_lines(output);
    assert_eq!(counts.to_string(), "answered 3, no 1 1, no 15 2, others 2");
}

#[test]
fn outputs_that_differ_are_found() {
    let compared = |other: &[u8]| equal_outputs(b"ok\nno 1\n", other);
    assert!(compared(b"ok\nno 1\n").is_ok());
    for other in ["ok\n", "ok\nno 1", "ok\nno 2\n", "ok\nno 1\nok\n", ""] {
        assert!(compared(other.as_bytes()).is_err());
    }
}

#[test]
fn equal_seeds_give_equal_input() {
    let sine = Sine::new();
    let pointings = |seed| random_batch::<Pointing>(&sine, seed, 100);
    assert_eq!(pointings(7), pointings(7));
    assert_ne!(pointings(7), pointings(8));
    assert_eq!(random_lines(&sine, 7, 500), random_lines(&sine, 7, 500));
    let calls = |seed| random_calls(&sine, Start::Old, seed, 500);
    assert_eq!(calls(7), calls(7));
    assert_ne!(calls(7), calls(8));
}

/// The outside vectors of calls on a card, by this program's calls on words: all of them agree, and
/// a library that leaves the words after an undo is found.
#[test]
fn card_vectors_on_words() {
    let sine = Sine::new();
    let vectors = include_str!("data/card.txt");
    let mut on_words = |call: &Call, words: &mut [i64], buffer: &mut [u8]| {
        call_on_words(&sine, call, words, buffer)
    };
    assert_eq!(compare_card_vectors(&sine, vectors, &mut on_words), Ok(2_249));
    let mut not_undone = |call: &Call, words: &mut [i64], buffer: &mut [u8]| {
        let before = words.to_vec();
        let answer = on_words(call, words, buffer);
        if *call == Call::Undo {
            words.copy_from_slice(&before);
        }
        answer
    };
    assert!(compare_card_vectors(&sine, vectors, &mut not_undone).is_err());
}
