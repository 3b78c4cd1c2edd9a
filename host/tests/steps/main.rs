//! The step program against the plain model of documents 01 and 02, line by line; and the library, call by call, where a
//! host's lines say what no line of the program does. `PIT_STEPS` names the program, `PIT_SEED` the first seed of the random
//! scripts: with the seed of a script that failed, it comes first.

mod by_hand;
mod library;
#[path = "../model/mod.rs"]
mod model;
mod program;
mod scripts;
#[path = "../support/mod.rs"]
mod support;

use by_hand::{agree, transcript};
use model::text::lines_of;
use program::{run, Session};
use scripts::{random, random_from_the_start, random_of_a_host, Script};
use std::collections::BTreeMap;
use std::process::Command;
use support::random::{first_seed, Random};

/// Whether the program has the lines READ and STAMP. Without them, it answers these with `refused,0`.
const READ_AND_STAMP: bool = true;

/// How many random scripts there are, and how many share one process.
const SCRIPTS: u64 = 2_400;
const SCRIPTS_A_PROCESS: u64 = 100;
/// How many random scripts of a host there are.
const HOST_SCRIPTS: u64 = 500;

/// The answer that is due, by what the program has.
fn due(line: &[u8], answer: &str) -> String {
    let later = line.starts_with(b"READ") || line.starts_with(b"STAMP");
    if later && !READ_AND_STAMP {
        "refused,0".to_string()
    } else {
        answer.to_string()
    }
}

/// Bytes as they can be printed.
fn shown(line: &[u8]) -> String {
    line.escape_ascii().to_string()
}

/// Fails with a script up to its line `at`.
fn mismatch(script: &Script, at: usize, wanted: &str, got: &str) -> ! {
    let upto: Vec<String> = script.lines[..=at].iter().map(|line| shown(line)).collect();
    panic!(
        "{}\n{}\nwanted: {wanted}\ngot:    {got}",
        script.name,
        upto.join("\n")
    );
}

/// Runs scripts one after the other in one process, and compares every answer.
fn check(scripts: &[Script]) {
    let lines = scripts.iter().flat_map(|script| &script.lines);
    let input: Vec<u8> = lines.flat_map(|line| [line, &b"\n"[..]].concat()).collect();
    let (output, end) = run(&input);
    let mut answers = lines_of(&output).into_iter();
    for script in scripts {
        for (at, answer) in script.answers.iter().enumerate() {
            let wanted = due(&script.lines[at], answer);
            match answers.next() {
                Some(got) if got == wanted.as_bytes() => (),
                Some(got) => mismatch(script, at, &wanted, &shown(got)),
                None => mismatch(script, at, &wanted, &format!("no answer, and {end:?}")),
            }
        }
    }
    assert_eq!(answers.next().map(shown), None, "an answer to no line");
    assert!(output.is_empty() || output.ends_with(b"\n"));
    assert_eq!(end, Ok(()));
}

/// Document 01's example, with line 0.
const EXAMPLE: &str = "
    FORMAT,16,4,8,2 > ok
    BEGIN,1 > ticket,1
    BEGIN,1 > ticket,2
    PUT,2,0,<22> > put
    PUT,1,0,<11> > put
    APPEND,0,2 > version,1,1
    APPEND,0,1 > version,2,2
    WEAVE,1 > node,2,0,2,1,2,1
    PUBLISH,0,0 > waiting
    WEAVE,2 > node,1,0,1,1,0,0
    PUBLISH,0,0 > published,1
    READ,0,2,0,0 > refused,16
    WEAVE,1 > node,2,1,1,0,0,0
    PUBLISH,0,0 > published,2
    READ,0,2,14,4 > bytes,22221111
    STAMP,0,2,0 > stamp,1
    BEGIN,1 > refused,5";

#[test]
fn the_example() {
    let (lines, answers) = transcript(EXAMPLE);
    agree(lines, answers);
}

/// The README's example: a line and its answer a row.
#[test]
fn the_readmes_example() {
    let readme = include_str!("../../../README.md");
    let section = readme.split("## The step program").nth(1);
    let rows = section.and_then(|section| section.split("```").nth(1));
    let rows = rows.expect("a block").lines().skip(1); // after the word `text`
    let words = |row: &str| row.split_whitespace().map(String::from).collect();
    let rows: Vec<Vec<String>> = rows.map(words).collect();
    assert!(rows.len() > 15 && rows.iter().all(|row| row.len() == 2));
    let line = |row: &Vec<String>| row[0].clone().into_bytes();
    let answers = rows.iter().map(|row| row[1].clone()).collect();
    agree(rows.iter().map(line).collect(), answers);
}

#[test]
fn a_missing_program_is_told_in_one_line() {
    let mut again = Command::new(std::env::current_exe().unwrap());
    let again = again.args(["the_example", "lines_cut", "a_long_line"]);
    let end = again.env("PIT_STEPS", "no/such/program").output().unwrap();
    let told = String::from_utf8(end.stderr).unwrap();
    assert!(!end.status.success());
    assert!(told.starts_with("no/such/program is missing: "), "{told}");
    assert_eq!(told.lines().count(), 1, "{told}");
}

// A running program: each line is answered before it waits for the next block.

#[test]
fn each_line_is_answered_before_the_next_is_sent() {
    let (lines, answers) = transcript(EXAMPLE);
    let mut session = Session::start();
    for (line, answer) in lines.iter().zip(answers) {
        session.send(&[line, &b"\n"[..]].concat());
        assert_eq!(session.answer(), due(line, &answer), "{}", shown(line));
    }
    session.send(&[&b"A".repeat(5_000)[..], b"\n"].concat());
    assert_eq!(session.answer(), "refused,0");
    session.send(b"RECENT,0\n");
    assert_eq!(session.answer(), "recent,2");
    assert_eq!(session.end(), "");
}

/// Each block ends within a line: what came whole before it is answered, and the rest of the line counts.
#[test]
fn lines_cut_between_blocks() {
    let (lines, answers) = transcript(EXAMPLE);
    let input = [lines.join(&b"\n"[..]), b"\n".to_vec()].concat();
    let mut random = Random::new(7);
    for step in [1, 7, 33, 40, 50] {
        let (mut session, mut sent, mut asked) = (Session::start(), 0, 0);
        while sent < input.len() {
            let end = (sent + 1 + random.below(step) as usize).min(input.len());
            session.send(&input[sent..end]);
            sent = end;
            let whole = input[..sent].iter().filter(|b| **b == b'\n').count();
            for at in asked..whole {
                assert_eq!(session.answer(), due(&lines[at], &answers[at]));
            }
            asked = whole;
        }
        assert_eq!(session.end(), "");
    }
}

#[test]
fn a_long_line_cut_between_blocks() {
    let mut session = Session::start();
    session.send(b"FORMAT,16,4,8,2\nREC");
    assert_eq!(session.answer(), "ok");
    session.send(b"ENT,0\nRECENT,0\nAAAA");
    assert_eq!(
        (session.answer(), session.answer()),
        ("recent,0".into(), "recent,0".into())
    );
    for _ in 0..3 {
        session.send(&b"A".repeat(599));
    }
    session.send(b"\nRECENT,0\nRECENT,0\n\n");
    let answers = [(); 4].map(|()| session.answer());
    assert_eq!(answers, ["refused,0", "recent,0", "recent,0", "refused,0"]);
    session.send(b"RECENT,0");
    assert_eq!(session.end(), "recent,0\n");
}

/// 16 MiB in one line, then in many, take the program no more memory than a short input.
#[test]
fn input_of_any_length_in_bounded_memory() {
    let mut session = Session::start();
    session.send(b"FORMAT,16,4,8,2\n");
    assert_eq!(session.answer(), "ok");
    let before = session.most_memory();
    for _ in 0..256 {
        session.send(&b"A".repeat(65_536));
    }
    session.send(b"\n");
    assert_eq!(session.answer(), "refused,0");
    let line = [&b"A".repeat(1_000)[..], b"\n"].concat();
    for _ in 0..16 {
        session.send(&line.repeat(1_000));
        for _ in 0..1_000 {
            assert_eq!(session.answer(), "refused,0");
        }
    }
    let grown = session.most_memory() - before;
    assert!(grown < 2_048, "{grown} KiB more");
    session.send(b"RECENT,0");
    assert_eq!(session.end(), "recent,0\n");
}

// Random scripts.

/// How often each answer came, by its word, or its number where refused.
fn tally(scripts: &[Script], counts: &mut BTreeMap<String, u64>) {
    for answer in scripts.iter().flat_map(|script| &script.answers) {
        let word = answer.split(',').next().expect("a word");
        let key = if word == "refused" { answer } else { word };
        *counts.entry(key.to_string()).or_default() += 1;
    }
    for stamps in scripts.iter().map(|script| script.stamps) {
        let of = [stamps.resent, stamps.between, stamps.shared, stamps.across];
        for (key, count) in STAMPS.into_iter().zip(of) {
            *counts.entry(key.to_string()).or_default() += count;
        }
    }
}

/// The stamps that are counted by what they tell: those of pages that were resent, and those of other lines.
const STAMPS: [&str; 4] = [
    "stamp below the covering version",
    "stamp between the first version of a page and the covering one",
    "stamp of a shared version",
    "stamp of a shared version, resent on the line",
];

/// The answers that the program can give: their words, and the rows of the table.
const WORDS: [&str; 13] = [
    "ok",
    "ticket",
    "put",
    "version",
    "node",
    "published",
    "waiting",
    "line",
    "bytes",
    "size",
    "recent",
    "stamp",
    "worst",
];
const ROWS: [u64; 19] = [
    0, 1, 2, 4, 5, 6, 7, 8, 9, 10, 11, 12, 13, 15, 16, 17, 20, 21, 22,
];

/// Each of these answers came often enough to mean something.
fn came(counts: &BTreeMap<String, u64>, words: &[&str], rows: &[u64]) {
    let words = words.iter().map(|word| word.to_string());
    let rows = rows.iter().map(|row| format!("refused,{row}"));
    for key in words.chain(rows) {
        let count = counts.get(&key).copied().unwrap_or(0);
        assert!(count >= 100, "{key} came {count} times: {counts:?}");
    }
}

#[test]
fn random_scripts() {
    let seed = first_seed("random_scripts");
    let mut counts = BTreeMap::new();
    for batch in (0..SCRIPTS).step_by(SCRIPTS_A_PROCESS as usize) {
        let seeds = batch..batch + SCRIPTS_A_PROCESS;
        let scripts: Vec<Script> = seeds.map(|i| random(seed.wrapping_add(i))).collect();
        check(&scripts);
        tally(&scripts, &mut counts);
    }
    println!("{SCRIPTS} scripts: {counts:?}");
    came(&counts, &WORDS, &ROWS);
    came(&counts, &STAMPS, &[]);
    // one in ten of all stamps, or more, tells that an update did not change the bytes
    assert!(10 * counts[STAMPS[0]] > counts["stamp"], "{counts:?}");
}

#[test]
fn random_scripts_from_a_fresh_start() {
    let seed = first_seed("random_scripts_from_a_fresh_start");
    let mut worst = 0;
    for i in 0..100 {
        let script = random_from_the_start(seed.wrapping_add(i));
        let before_ok = script.answers.iter().take_while(|answer| *answer != "ok");
        worst += before_ok.filter(|a| a.starts_with("worst,")).count();
        check(&[script]);
    }
    assert!(worst >= 100, "{worst} worst counts before a FORMAT");
}

#[test]
fn random_scripts_of_a_host() {
    let seed = first_seed("random_scripts_of_a_host");
    let mut counts = BTreeMap::new();
    for i in 0..HOST_SCRIPTS {
        let script = random_of_a_host(seed.wrapping_add(i));
        library::check(&script);
        tally(&[script], &mut counts);
    }
    println!("{HOST_SCRIPTS} scripts: {counts:?}");
    came(&counts, &WORDS, &ROWS);
    came(&counts, &STAMPS, &[]);
    came(&counts, &["done", "held"], &[23, 24]);
}
