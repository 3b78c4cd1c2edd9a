//! Scripts with answers written by hand, and the helpers that run them.

mod boundaries;
mod ends;
mod faults;
mod limits;
mod lines;
mod lists;
mod malformed;
mod rows;
mod stamps;
mod windows;
mod worst;

use crate::model::text::Program;
use crate::program::run;
use crate::scripts::Script;
use crate::{check, mismatch, shown};

/// Compares the program with answers written by hand, and the model with them too.
pub fn agree(lines: Vec<Vec<u8>>, answers: Vec<String>) {
    let name = "by hand".to_string();
    let script = Script {
        name,
        lines,
        answers,
        ..Script::default()
    };
    let mut model = Program::default();
    for (at, wanted) in script.answers.iter().enumerate() {
        let got = model.answer(&script.lines[at]);
        if got != *wanted {
            mismatch(&script, at, wanted, &format!("{got}, from the model"));
        }
    }
    check(&[script]);
}

/// A script by hand: rows of a line and its answer, parted by ` > `, where `<22>` is 16 times the byte 22.
pub fn transcript(text: &str) -> (Vec<Vec<u8>>, Vec<String>) {
    let rows = text.lines().map(str::trim).filter(|row| !row.is_empty());
    let part = |row: &str| {
        let (line, answer) = row.split_once(" > ").expect("line > answer");
        let line = match line.split_once('<') {
            Some((front, byte)) => format!("{front}{}", byte.trim_end_matches('>').repeat(16)),
            None => line.to_string(),
        };
        (line.into_bytes(), answer.to_string())
    };
    rows.map(part).unzip()
}

/// Compares with a script by hand.
fn agree_on(text: &str) {
    let (lines, answers) = transcript(text);
    agree(lines, answers);
}

/// Compares the program with the model, line by line from a fresh start, and gives the answers.
fn same_as_model<L: Into<Vec<u8>>>(lines: Vec<L>) -> Vec<String> {
    let lines: Vec<Vec<u8>> = lines.into_iter().map(L::into).collect();
    let mut model = Program::default();
    let answers: Vec<String> = lines.iter().map(|line| model.answer(line)).collect();
    let name = "by the model".to_string();
    check(&[Script {
        name,
        lines,
        answers: answers.clone(),
        ..Script::default()
    }]);
    answers
}

/// How often an answer came.
fn count(answers: &[String], wanted: &str) -> usize {
    answers.iter().filter(|answer| *answer == wanted).count()
}

/// Each line is refused with 0, in a store with a ticket, and the store goes on.
fn all_refused_with_0<L: Into<Vec<u8>>>(bad: impl IntoIterator<Item = L>) {
    let (mut lines, mut answers) = transcript("FORMAT,16,4,8,2 > ok\nBEGIN,1 > ticket,1");
    for line in bad {
        lines.extend([line.into(), b"RECENT,0".to_vec()]);
        answers.extend(["refused,0", "recent,0"].map(String::from));
    }
    agree(lines, answers);
}

/// The whole output for an input, byte by byte.
fn exact(input: &[u8], output: &str) {
    let (got, end) = run(input);
    assert_eq!(shown(&got), shown(output.as_bytes()), "{}", shown(input));
    assert_eq!(end, Ok(()));
}

/// The bytes of page `i` of a ticket's update, for S of 16.
fn page(ticket: usize, i: usize) -> String {
    format!("{:04x}", 1_000 * ticket + i).repeat(8)
}

/// The lines of an update of `n` pages up to its ASSIGN.
fn update(ticket: usize, n: usize, assign: &str) -> Vec<String> {
    let put = |i| format!("PUT,{ticket},{i},{}", page(ticket, i));
    let mut lines = vec![format!("BEGIN,{n}")];
    lines.extend((0..n).map(put));
    lines.push(assign.to_string());
    lines
}
