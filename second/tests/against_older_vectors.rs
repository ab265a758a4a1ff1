//! The outside vectors that are older than request 5: their shots are of the table with a step of
//! five minutes, with which (the feature `five_minutes`) every line must agree whole.

#![cfg(feature = "five_minutes")]

mod vector_lines;

use second::question::Pointing;
use second::replay;
use second::session;
use second::sine::Sine;
use vector_lines::agree;

#[test]
fn pointing_vectors() {
    let sine = Sine::new();
    agree(include_str!("data/pointing.txt"), 200, |line| {
        replay::question_line::<Pointing>(&sine, line)
    });
}

/// One session of the file: input lines and answers.
fn compare_session(sine: &Sine, text: &str) {
    let side = |mark: char| -> Vec<String> {
        let lines = text.lines().filter_map(|line| line.strip_prefix(mark));
        lines.map(|line| line.replace("\\r", "\r").replace("\\t", "\t")).collect()
    };
    let lines = side('<');
    let mut input = lines.join("\n");
    if !lines.is_empty() && !text.contains("# last line without newline") {
        input.push('\n');
    }
    let mut output = Vec::new();
    session::run(sine, input.as_bytes(), &mut output).expect("writing to memory");
    let answers = String::from_utf8(output).expect("plain text");
    let expected: String = side('>').iter().map(|line| format!("{line}\n")).collect();
    assert_eq!(answers, expected, "{text}");
}

#[test]
fn session_vectors() {
    let sine = Sine::new();
    let sessions: Vec<&str> =
        include_str!("../../compare/sessions.txt").split_terminator("--\n").collect();
    assert_eq!(sessions.len(), 25);
    for text in sessions {
        compare_session(&sine, text);
    }
}
