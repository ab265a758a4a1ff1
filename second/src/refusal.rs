//! The refusals. Document 01, "Refusal numbers", and document 02, requests 1, 3, 6 and 7.

/// A refusal; its number in the documents is its value.
#[derive(Clone, Copy, Debug, PartialEq, Eq)]
pub enum Refusal {
    FieldNotConfirmed = 1,
    NoSuchDate = 2,
    TimeNotAllowed = 3,
    Dut1OutOfRange = 4,
    PositionOutOfRange = 5,
    NoSuchBody = 6,
    BelowHorizon = 7,
    NearZenith = 8,
    NoSuchField = 9,
    EmptyField = 10,
    TextDoesNotFit = 11,
    NotRead = 12,
    NumberTooLarge = 13,
    MalformedLine = 14,
    AngleOutOfRange = 15,
    LengthOutOfRange = 16,
    DeltaTOutOfRange = 17,
    NothingToUndo = 18,
    NoSuchEdition = 19,
}

impl Refusal {
    /// The number of the documents.
    pub fn number(self) -> i64 {
        self as i64
    }
}
