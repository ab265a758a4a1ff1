//! Every line of the outside vectors in `data/` must agree whole: here those of the rules as they
//! stand, in `against_older_vectors.rs` those that are older than request 5.

#![cfg(not(feature = "five_minutes"))]

mod vector_lines;

use second::bound::LongitudeBounds;
use second::card::Card;
use second::polynomial::Polynomial;
use second::question::{asked_by_vector, Choice, Shot};
use second::refusal::Refusal;
use second::replay;
use second::sine::Sine;
use second::spread::{choose, Chosen};
use vector_lines::agree;

#[test]
fn shot_vectors() {
    let sine = Sine::new();
    agree(include_str!("data/shot.txt"), 1_987, |line| replay::question_line::<Shot>(&sine, line));
}

#[test]
fn card_vectors() {
    let sine = Sine::new();
    let mut card = Card::fresh();
    agree(include_str!("data/card.txt"), 2_249, |line| replay::card_line(&sine, &mut card, line));
}

#[test]
fn choice_vectors() {
    let sine = Sine::new();
    agree(include_str!("data/choice.txt"), 160, |line| {
        replay::question_line::<Choice>(&sine, line)
    });
}

/// Which list it is, told by where the slice lies: the list itself is handed back, and with a
/// refusal the empty front of the first.
#[test]
fn choice_vectors_without_a_copy() {
    agree(include_str!("data/choice.txt"), 160, |line| {
        let Choice { first, second } = asked_by_vector(line)?;
        let Chosen { list, part } = choose(&first, &second);
        let lists = [first.as_ptr(), second.as_ptr()];
        let place = lists.iter().position(|&start| start == part.as_ptr()).expect("a list");
        let number = list.map_or_else(Refusal::number, |_| 0);
        Ok(format!("{number} {} {}", place + 1, part.len()))
    });
}

#[test]
fn parts_vectors() {
    let sine = Sine::new();
    agree(include_str!("data/parts.txt"), 60, |line| replay::parts_line(&sine, line));
}

#[test]
fn sine_vectors() {
    let sine = Sine::new();
    agree(include_str!("data/sine.txt"), 736, |line| replay::sine_line(&sine, line));
}

#[test]
fn angle_vectors() {
    let sine = Sine::new();
    agree(include_str!("data/angle.txt"), 449, |line| replay::angle_line(&sine, line));
}

#[test]
fn longitude_vectors() {
    let (sine, polynomial) = (Sine::new(), Polynomial::new());
    let bounds = LongitudeBounds::new();
    agree(include_str!("data/longitude.txt"), 200, |line| {
        replay::longitude_line(&sine, &polynomial, &bounds, line)
    });
}
