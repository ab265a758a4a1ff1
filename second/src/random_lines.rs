//! Seeded random session lines, good and damaged.

use crate::card::LARGEST_HEARD;
use crate::fieldbook::Fields;
use crate::options::Options;
use crate::random::{edge_number, shot_fields, Random};
use crate::sine::Sine;

/// Bytes that a damaged line may get.
const STRAY: [u8; 16] = *b"\r\t \0-+,.sHRC5a\x7f\xff";
/// Malformed lines of their own kind.
const MALFORMED: [&[u8]; 24] = [
    b"", b" ", b"H", b"H ", b"H 5", b"H 5 ", b"R", b"R ", b"C", b"C ", b"S ", b" S", b"S\r",
    b"S 1", b"s", b"h 5 5", b"r 5", b"c 5", b"H 5  5", b"H  5 5", b"HH 5 5", b"H5 5", b"X 1",
    b"R\t5",
];

/// Whether a number isn't refused when it is heard.
fn is_hearable(number: i64) -> bool {
    number.unsigned_abs() <= LARGEST_HEARD
}

/// Makes the lines of one long session.
pub struct Lines<'a> {
    random: Random,
    sine: &'a Sine,
    /// Lines already made, the next one last.
    ready: Vec<Vec<u8>>,
    made: u64,
}

impl<'a> Lines<'a> {
    /// A maker; equal seeds give equal lines.
    pub fn new(seed: u64, sine: &'a Sine) -> Self {
        Lines { random: Random::new(seed), sine, ready: Vec::new(), made: 0 }
    }

    /// The next line, without a newline.
    pub fn next_line(&mut self) -> Vec<u8> {
        if self.ready.is_empty() {
            let mut lines = self.group();
            lines.reverse();
            self.ready = lines;
        }
        self.made += 1;
        let line = self.ready.pop().unwrap_or_default();
        if self.random.once_in(50) {
            return self.damaged(line);
        }
        line
    }

    /// Some lines that belong together: reads of every field and loose calls first, while
    /// fields are still empty.
    fn group(&mut self) -> Vec<Vec<u8>> {
        if self.made == 0 {
            return (1..=11).map(|field| format!("R {field}").into_bytes()).collect();
        }
        if self.made < 100 {
            return vec![self.loose_call()];
        }
        match self.random.between(0, 15) {
            0..=3 => vec![self.loose_call()],
            4 => vec![self.malformed()],
            5..=8 => self.new_shot(),
            9..=11 => self.edge_field(),
            _ => self.changed_fields(),
        }
    }

    /// All eleven fields heard, read and confirmed, then a shot.
    fn new_shot(&mut self) -> Vec<Vec<u8>> {
        let fields = self.hearable_shot();
        let mut lines = Vec::new();
        for (i, &number) in fields.iter().enumerate() {
            lines.extend(self.enter(i as i64 + 1, number));
        }
        lines.push(b"S".to_vec());
        lines
    }

    /// One to three fields entered anew, then a shot; a step is sometimes left out.
    fn changed_fields(&mut self) -> Vec<Vec<u8>> {
        let fields = self.hearable_shot();
        let mut lines = Vec::new();
        for _ in 0..self.random.between(1, 3) {
            let place = self.random.between(0, 10);
            lines.extend(self.enter(place + 1, fields[place as usize]));
            if self.random.once_in(10) {
                lines.remove(self.random.between(0, lines.len() as i64 - 1) as usize);
            }
        }
        lines.push(b"S".to_vec());
        lines
    }

    /// One field entered with a number at its edge, then a shot.
    fn edge_field(&mut self) -> Vec<Vec<u8>> {
        let place = self.random.between(3, 10);
        let number = loop {
            let number = edge_number(&mut self.random, place as usize);
            if is_hearable(number) {
                break number;
            }
        };
        let mut lines = self.enter(place + 1, number);
        lines.push(b"S".to_vec());
        lines
    }

    /// The eleven numbers of a random shot whose numbers can all be heard.
    fn hearable_shot(&mut self) -> Fields {
        loop {
            let fields = shot_fields(&mut self.random, self.sine, Options::default());
            if fields.iter().all(|&field| is_hearable(field)) {
                return fields;
            }
        }
    }

    /// Hear, read and confirm of one field.
    fn enter(&mut self, field: i64, number: i64) -> Vec<Vec<u8>> {
        let (first, second, third) =
            (self.written(field), self.written(field), self.written(field));
        let number = self.written(number);
        vec![
            format!("H {first} {number}").into_bytes(),
            format!("R {second}").into_bytes(),
            format!("C {third}").into_bytes(),
        ]
    }

    /// A number of at most 9 digits, now and then with leading zeros or as -0.
    fn written(&mut self, number: i64) -> String {
        if !self.random.once_in(12) {
            return number.to_string();
        }
        let sign = if number < 0 || (number == 0 && self.random.once_in(2)) { "-" } else { "" };
        let width = self.random.between(1, 9) as usize;
        format!("{sign}{:0width$}", number.unsigned_abs())
    }

    /// One call with any field number and any number.
    fn loose_call(&mut self) -> Vec<u8> {
        let field = match self.random.between(0, 9) {
            0 => self.random.choose(&[-999_999_999, -3, -1, 0, 12, 13, 99, 999_999_999]),
            _ => self.random.between(1, 11),
        };
        let field = self.written(field);
        match self.random.between(0, 9) {
            0..=3 => {
                let number = self.loose_number();
                format!("H {field} {}", self.written(number)).into_bytes()
            }
            4..=6 => format!("R {field}").into_bytes(),
            7 | 8 => format!("C {field}").into_bytes(),
            _ => b"S".to_vec(),
        }
    }

    /// A number to hear, around the ends too.
    fn loose_number(&mut self) -> i64 {
        let largest = LARGEST_HEARD as i64;
        match self.random.between(0, 3) {
            0 => self.random.choose(&[-largest - 1, -largest, largest, largest + 1, 999_999_999]),
            1 => self.random.between(-largest, largest),
            _ => self.random.between(-99, 99),
        }
    }

    /// A line of another form, now and then a very long one.
    fn malformed(&mut self) -> Vec<u8> {
        match self.random.between(0, 19) {
            0 => {
                let length = self.random.between(100, 70_000) as usize;
                [b"H 1 ", vec![self.random.choose(b"05 -H\0\xc3"); length].as_slice()].concat()
            }
            1..=3 => format!("R {:010}", self.random.between(-5, 11)).into_bytes(),
            4..=6 => {
                let length = self.random.between(0, 20);
                (0..length).map(|_| self.any_byte()).collect()
            }
            _ => self.random.choose(&MALFORMED).to_vec(),
        }
    }

    /// Any byte but the newline.
    fn any_byte(&mut self) -> u8 {
        match self.random.between(0, 255) as u8 {
            b'\n' => b'\r',
            byte => byte,
        }
    }

    /// A line with one byte put in, taken out or changed, cut short or in lower case.
    fn damaged(&mut self, mut line: Vec<u8>) -> Vec<u8> {
        let place = self.random.between(0, line.len() as i64) as usize;
        let stray =
            if self.random.once_in(4) { self.any_byte() } else { self.random.choose(&STRAY) };
        match self.random.between(0, 5) {
            0 => line.insert(place, stray),
            1 => line.push(stray),
            2 => line.truncate(place),
            3 => line.make_ascii_lowercase(),
            _ if place < line.len() && stray % 2 == 0 => line[place] = stray,
            _ if place < line.len() => _ = line.remove(place),
            _ => line.push(b'\r'),
        }
        line
    }
}
