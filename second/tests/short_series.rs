//! What the short series costs: the longitudes of the outside vectors by either edition, the bound
//! on random instants, and the comparison itself, which finds a library or a program that differs.

#![cfg(not(feature = "five_minutes"))]

mod changed_library;

use changed_library::{changed, COUNT};
use second::compare::{batch_answers, compare_longitudes, equal_outputs, random_batch, Way};
use second::fieldbook::instant_fields;
use second::question::{Editions, LibraryAnswer, Question};
use second::random::{accepted, Random};
use second::replay::batch_line;
use second::short_series::{cost, Cost};
use second::sine::Sine;

/// This program's answers as a library's.
fn own_answer(sine: &Sine, editions: &Editions) -> LibraryAnswer<Editions> {
    Editions::as_library(editions.answer(sine))
}

/// Each line has s by one edition, and no instant stands there by both.
#[test]
fn longitudes_of_the_outside_vectors() {
    let sine = Sine::new();
    let vectors = include_str!("data/longitude.txt");
    let right: Way<Editions> = ("right", &|editions| own_answer(&sine, editions));
    assert_eq!(compare_longitudes(vectors, &[right]), Ok(200));
    let changes: [fn(LibraryAnswer<Editions>) -> LibraryAnswer<Editions>; 5] = [
        |(refusal, [short, full, apart, bound])| (refusal, [full, short, apart, bound]),
        |(refusal, [short, _, apart, bound])| (refusal, [short, short, apart, bound]),
        |(refusal, [_, full, apart, bound])| (refusal, [full, full, apart, bound]),
        |(refusal, [short, full, _, bound])| (refusal, [short, full, bound + 1, bound]),
        |(_, values)| (17, values),
    ];
    for change in changes {
        let wrong: Way<Editions> = ("wrong", &|editions| change(own_answer(&sine, editions)));
        assert!(compare_longitudes(vectors, &[right, wrong]).is_err());
    }
    let s = cost(&sine, &[2000, 1, 1, 0, 0, 0, 0, 0]).expect("an instant").short;
    for (edition, lines) in [(" 1", Ok(1)), (" 2", Err(())), (" 3", Err(())), ("", Err(()))] {
        let vector = format!("2000 1 1 0 0 0 0 0{edition} = {s} {s} 4");
        assert_eq!(compare_longitudes(&vector, &[right]).map_err(|_| ()), lines);
    }
}

/// s of every answered shot of the Sun in the outside vectors is the longitude by its edition.
#[test]
fn longitudes_of_the_outside_shots() {
    let sine = Sine::new();
    let mut compared = [0, 0];
    for line in include_str!("data/shot.txt").lines().filter(|line| !line.starts_with('#')) {
        let (given, expected) = line.split_once(" = ").expect("a line with =");
        let given: Vec<i64> = given.split(' ').map(|word| word.parse().unwrap()).collect();
        let expected: Vec<i64> = expected.split(' ').map(|word| word.parse().unwrap()).collect();
        if expected[0] == 0 && given[9] == 1 {
            let fields = instant_fields(given[..11].try_into().unwrap());
            let Cost { short, full, apart, bound } = cost(&sine, &fields).expect("an instant");
            let edition = given[11] as usize - 1;
            assert_eq!([short, full][edition], expected[4], "{line}");
            assert!(apart <= bound, "{line}");
            compared[edition] += 1;
        }
    }
    assert!(compared.iter().all(|&count| count > 100), "{compared:?}");
}

/// The editions are no farther apart than their bound. On 22 March 2020, where they are farthest
/// apart, a bound without Jupiter's largest term, 7.208 seconds, would not hold.
#[test]
fn editions_no_farther_apart_than_their_bound() {
    let (sine, mut random) = (Sine::new(), Random::new(8));
    for _ in 0..COUNT {
        let fields = instant_fields(&accepted(&mut random));
        let Cost { apart, bound, .. } = cost(&sine, &fields).expect("an accepted instant");
        assert!(apart <= bound, "{fields:?}");
    }
    let farthest = cost(&sine, &[2020, 3, 22, 6, 30, 0, 0, 0]).expect("an accepted instant");
    assert!(farthest.apart > farthest.bound - 72_080, "{farthest:?}");
}

/// What a library may get wrong in an answer that it must not refuse.
#[test]
fn answers_that_differ_are_found() {
    let sine = Sine::new();
    let wrong = |change: &dyn Fn(&[i64; 8], &mut [u64; 4])| {
        changed::<Editions>(|editions, (refusal, values)| {
            if *refusal == 0 {
                change(&editions.fields, values);
            }
        })
    };
    assert!(wrong(&|_, _| {}).is_ok());
    let not_the_short_way = wrong(&|_, values| values[2] = values[0].abs_diff(values[1]));
    assert!(not_the_short_way.is_err());
    let with_a_sign = wrong(&|_, values| values[2] = values[1].wrapping_sub(values[0]));
    assert!(with_a_sign.is_err());
    let exchanged = wrong(&|_, values| values.swap(0, 1));
    assert!(exchanged.is_err());
    let one_more = wrong(&|_, values| values[3] += 1);
    assert!(one_more.is_err());
    let largest_bound = wrong(&|_, values| values[3] = 227_810);
    assert!(largest_bound.is_err());
    let by_ut1 = |fields: &[i64; 8]| {
        let mut fields = *fields;
        fields[7] = 0;
        cost(&sine, &fields).expect("an accepted instant").words()
    };
    let bound_by_ut1 = wrong(&|fields, values| values[3] = by_ut1(fields)[3]);
    assert!(bound_by_ut1.is_err());
    let longitudes_by_ut1 = wrong(&|fields, values| {
        values[..3].copy_from_slice(&by_ut1(fields)[..3]);
    });
    assert!(longitudes_by_ut1.is_err());
}

#[test]
fn refusals_that_differ_are_found() {
    for number in [2, 3, 4, 17] {
        for value in 0..4 {
            let refused_with_a_value = changed::<Editions>(|_, (refusal, values)| {
                values[value] += u64::from(*refusal == number);
            });
            assert!(refused_with_a_value.is_err());
        }
    }
    // the refusal given, the field that is out of range too, its range, and that field's refusal
    let orders = [(2, 6, 900, 4), (3, 6, 900, 4), (2, 7, 120_000, 17), (4, 7, 120_000, 17)];
    for (first, place, largest, later) in orders {
        let later_first = changed::<Editions>(|editions, (refusal, _)| {
            if *refusal == first && editions.fields[place] > largest {
                *refusal = later;
            }
        });
        assert!(later_first.is_err());
    }
    let no_leap_second = changed::<Editions>(|editions, answer| {
        if answer.0 == 0 && editions.fields[5] > 59_999 {
            *answer = (3, Editions::REFUSED);
        }
    });
    assert!(no_leap_second.is_err());
}

/// Lines of seven and of nine numbers are among the random ones: a program that takes ΔT as 0 where
/// it is left out, or passes over a ninth number, is found.
#[test]
fn lines_of_other_lengths_are_found() {
    let sine = Sine::new();
    let input = random_batch::<Editions>(&sine, 1, COUNT);
    let answers = batch_answers::<Editions>(&sine, &input);
    let input = String::from_utf8(input).unwrap();
    let with = |change: &dyn Fn(&[&str]) -> String| {
        let mut given = String::new();
        for line in input.lines() {
            let words: Vec<&str> = line.split(' ').collect();
            given += &format!("{}\n", batch_line::<Editions>(&sine, change(&words).as_bytes()));
        }
        equal_outputs(&answers, given.as_bytes())
    };
    assert!(with(&|words| words.join(" ")).is_ok());
    assert!(with(&|words| words[..words.len().min(8)].join(" ")).is_err());
    assert!(with(&|words| match words.len() {
        7 => format!("{} 0", words.join(" ")),
        _ => words.join(" "),
    })
    .is_err());
}
