//! The declarations of `capi/fieldbook.h`. But for the options they are not public: a caller must
//! not take what stands in a refused answer for an angle.

/// How a shot is to be worked, beside its numbers; any numbers may be given.
///
/// Later versions will have more members. Take those that you do not set from the default, and your
/// answers stay:
///
/// ```
/// use fieldbook::{Options, FULL_EDITION, SHORT_EDITION};
///
/// let options = Options { edition: FULL_EDITION, ..Options::default() };
/// assert_eq!(Options::default().edition, SHORT_EDITION);
/// ```
#[repr(C)]
#[derive(Clone, Copy, Debug, PartialEq, Eq)]
pub struct Options {
    /// The edition of the Sun's series, for Polaris too, which is the same by both: 1 the short one,
    /// the default; 2 the full one.
    pub edition: i64,
}

/// `struct fieldbook_shot_answer`.
#[repr(C)]
#[derive(Clone, Copy, Debug, PartialEq, Eq)]
pub struct ShotAnswer {
    pub refusal: u64,
    pub azimuth: u64,
    pub zenith_distance: u64,
    pub hour_angle: u64,
    pub longitude: u64,
}

/// `struct fieldbook_pointing_answer`.
#[repr(C)]
#[derive(Clone, Copy, Debug, PartialEq, Eq)]
pub struct PointingAnswer {
    pub refusal: u64,
    pub mark: u64,
}

/// `struct fieldbook_choice_answer`.
#[repr(C)]
#[derive(Clone, Copy, Debug, PartialEq, Eq)]
pub struct ChoiceAnswer {
    pub refusal: u64,
    pub list: u64,
    pub count: u64,
}

/// `struct fieldbook_editions_answer`.
#[repr(C)]
#[derive(Clone, Copy, Debug, PartialEq, Eq)]
pub struct EditionsAnswer {
    pub refusal: u64,
    pub short_edition: u64,
    pub full_edition: u64,
    pub apart: u64,
    pub bound: u64,
}

/// `struct fieldbook_read_answer`.
#[repr(C)]
#[derive(Clone, Copy, Debug, PartialEq, Eq)]
pub struct ReadAnswer {
    pub refusal: u64,
    pub length: u64,
}

extern "C" {
    fn fieldbook_shot(
        year: i64,
        month: i64,
        day: i64,
        hour: i64,
        minute: i64,
        millisecond: i64,
        dut1: i64,
        latitude: i64,
        longitude: i64,
        body: i64,
        delta_t: i64,
        options: Options,
    ) -> ShotAnswer;

    fn fieldbook_shots(
        rows: *const i64,
        rows_count: usize,
        answers: *mut u64,
        answers_count: usize,
        options: Options,
    ) -> u64;

    fn fieldbook_pointing(
        year: i64,
        month: i64,
        day: i64,
        hour: i64,
        minute: i64,
        millisecond: i64,
        dut1: i64,
        latitude: i64,
        longitude: i64,
        body: i64,
        delta_t: i64,
        angle: i64,
        options: Options,
    ) -> PointingAnswer;

    fn fieldbook_choice(
        first: *const i64,
        first_count: usize,
        second: *const i64,
        second_count: usize,
    ) -> ChoiceAnswer;

    fn fieldbook_editions(
        year: i64,
        month: i64,
        day: i64,
        hour: i64,
        minute: i64,
        millisecond: i64,
        dut1: i64,
        delta_t: i64,
    ) -> EditionsAnswer;

    fn fieldbook_card_fresh(card: *mut i64, card_count: usize) -> u64;

    fn fieldbook_card_hear(card: *mut i64, card_count: usize, field: i64, number: i64) -> u64;

    fn fieldbook_card_read(
        card: *mut i64,
        card_count: usize,
        field: i64,
        buffer: *mut u8,
        buffer_count: usize,
        place: usize,
    ) -> ReadAnswer;

    fn fieldbook_card_confirm(card: *mut i64, card_count: usize, field: i64) -> u64;

    fn fieldbook_card_undo(card: *mut i64, card_count: usize) -> u64;

    fn fieldbook_card_shot(card: *const i64, card_count: usize, options: Options) -> ShotAnswer;
}

/// The shot as the static library answers it, with the fields in the card's order.
pub fn shot(n: [i64; 11], options: Options) -> ShotAnswer {
    // SAFETY: the function is proved for all numbers and is lent no memory.
    unsafe {
        fieldbook_shot(n[0], n[1], n[2], n[3], n[4], n[5], n[6], n[7], n[8], n[9], n[10], options)
    }
}

/// Many shots as the static library answers them: rows of eleven numbers, answers of five words.
pub fn shots(rows: &[i64], answers: &mut [u64], options: Options) -> u64 {
    let (numbers, words) = (rows.len(), answers.len());
    // SAFETY: the function is proved for all lists, reads the one and writes the other, which is
    // borrowed for it alone, and keeps neither pointer.
    unsafe { fieldbook_shots(rows.as_ptr(), numbers, answers.as_mut_ptr(), words, options) }
}

/// The pointing as the static library answers it.
pub fn pointing(n: [i64; 11], angle: i64, options: Options) -> PointingAnswer {
    // SAFETY: the function is proved for all numbers and is lent no memory.
    unsafe {
        fieldbook_pointing(
            n[0], n[1], n[2], n[3], n[4], n[5], n[6], n[7], n[8], n[9], n[10], angle, options,
        )
    }
}

/// The choice as the static library answers it.
pub fn choice(first: &[i64], second: &[i64]) -> ChoiceAnswer {
    // SAFETY: the function is proved for all lists, only reads them, and keeps neither pointer.
    unsafe { fieldbook_choice(first.as_ptr(), first.len(), second.as_ptr(), second.len()) }
}

/// Both editions at an instant as the static library answers them: a shot's numbers without position
/// and body.
pub fn editions(n: [i64; 8]) -> EditionsAnswer {
    // SAFETY: the function is proved for all numbers and is lent no memory.
    unsafe { fieldbook_editions(n[0], n[1], n[2], n[3], n[4], n[5], n[6], n[7]) }
}

/// A fresh card in the words, as the static library writes it.
pub fn card_fresh(card: &mut [i64]) -> u64 {
    // SAFETY: the function is proved for all words, which are borrowed for it alone, and keeps no
    // pointer.
    unsafe { fieldbook_card_fresh(card.as_mut_ptr(), card.len()) }
}

/// The hearing as the static library does it, on any words.
pub fn card_hear(card: &mut [i64], field: i64, number: i64) -> u64 {
    // SAFETY: as for a fresh card.
    unsafe { fieldbook_card_hear(card.as_mut_ptr(), card.len(), field, number) }
}

/// The reading as the static library does it, on any words and with any buffer and place.
pub fn card_read(card: &mut [i64], field: i64, buffer: &mut [u8], place: usize) -> ReadAnswer {
    let (words, bytes) = (card.len(), buffer.len());
    // SAFETY: as for a fresh card, and the buffer too is borrowed for the function alone.
    unsafe {
        fieldbook_card_read(card.as_mut_ptr(), words, field, buffer.as_mut_ptr(), bytes, place)
    }
}

/// The confirming as the static library does it, on any words.
pub fn card_confirm(card: &mut [i64], field: i64) -> u64 {
    // SAFETY: as for a fresh card.
    unsafe { fieldbook_card_confirm(card.as_mut_ptr(), card.len(), field) }
}

/// The undo as the static library does it, on any words.
pub fn card_undo(card: &mut [i64]) -> u64 {
    // SAFETY: as for a fresh card.
    unsafe { fieldbook_card_undo(card.as_mut_ptr(), card.len()) }
}

/// The shot from any words as the static library answers it.
pub fn card_shot(card: &[i64], options: Options) -> ShotAnswer {
    // SAFETY: the function is proved for all words, only reads them, and keeps no pointer.
    unsafe { fieldbook_card_shot(card.as_ptr(), card.len(), options) }
}
