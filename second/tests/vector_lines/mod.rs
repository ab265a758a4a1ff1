//! Lines of the outside vectors.

use second::refusal::Refusal;

/// Compares each `given = expected` line with an answer; the file must have `count` lines.
pub fn agree(file: &str, count: usize, mut answer: impl FnMut(&[u8]) -> Result<String, Refusal>) {
    let mut compared = 0;
    for line in file.lines().filter(|line| !line.starts_with('#')) {
        let (given, expected) = line.split_once(" = ").expect("a line with =");
        assert_eq!(answer(given.as_bytes()).as_deref(), Ok(expected), "{given}");
        compared += 1;
    }
    assert_eq!(compared, count);
}
