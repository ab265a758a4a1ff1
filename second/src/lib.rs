//! A second program for document 01 and the requests of document 02: an independent
//! implementation in plain Rust, written from the papers alone, to which the proved book is
//! compared.

pub mod angle;
pub mod arguments;
pub mod bench;
pub mod bound;
pub mod calendar;
pub mod call;
pub mod card;
pub mod compare;
pub mod counts;
pub mod digits;
pub mod edition;
pub mod exact;
pub mod extremes;
pub mod fieldbook;
pub mod frame;
pub mod horizon;
pub mod lent_cards;
pub mod lines;
pub mod many_shots;
pub mod natural;
pub mod options;
pub mod parts;
pub mod pointing;
pub mod polaris;
pub mod polynomial;
pub mod question;
pub mod random;
pub mod random_calls;
pub mod random_choices;
pub mod random_instants;
pub mod random_lines;
pub mod refusal;
pub mod replay;
pub mod rotation;
pub mod series;
pub mod session;
pub mod short_series;
pub mod sine;
pub mod spread;
pub mod sun;
