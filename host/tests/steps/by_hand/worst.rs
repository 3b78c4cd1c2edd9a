//! The worst node count, which asks nothing of a store and changes nothing.

use super::malformed::agree_on_largest;
use super::{agree, agree_on, all_refused_with_0, count, exact, same_as_model, transcript};
use crate::EXAMPLE;

/// A count that is given, and two that are not: by its numbers, and by the line's form.
const THREE: &str = "WORST,64,2 > worst,13\nWORST,64,33 > refused,0\nWORST,64 > refused,0";

#[test]
fn every_bound_from_both_sides() {
    agree_on_largest(
        "
        WORST,2,1 > worst,2
        WORST,0,0 > refused,0
        WORST,0,1 > refused,0
        WORST,1,0 > refused,0
        WORST,1,1 > refused,0
        WORST,2,0 > refused,0
        WORST,2,2 > refused,0
        WORST,3,1 > refused,0
        WORST,4,0 > refused,0
        WORST,4,1 > worst,3
        WORST,4,2 > worst,5
        WORST,4,3 > refused,0
        WORST,5,1 > refused,0
        WORST,6,1 > refused,0
        WORST,64,2 > worst,13
        WORST,2,64 > refused,0
        WORST,64,32 > worst,69
        WORST,64,33 > refused,0
        WORST,64,64 > refused,0
        WORST,127,1 > refused,0
        WORST,128,63 > worst,132
        WORST,128,64 > worst,134
        WORST,128,65 > refused,0
        WORST,129,1 > refused,0
        WORST,4095,1 > refused,0
        WORST,4096,0 > refused,0
        WORST,4096,1 > worst,13
        WORST,4096,64 > worst,144
        WORST,4096,65 > refused,0
        WORST,4096,2048 > refused,0
        WORST,4096,4096 > refused,0
        WORST,4097,1 > refused,0
        WORST,8192,1 > refused,0
        WORST,8192,64 > refused,0
        WORST,65536,1 > refused,0
        WORST,4294967296,1 > refused,0
        WORST,4294967298,1 > refused,0
        WORST,64,4294967298 > refused,0
        WORST,9223372036854775808,1 > refused,0
        WORST,9223372036854775872,2 > refused,0
        WORST,64,9223372036854775810 > refused,0
        WORST,M,1 > refused,0
        WORST,2,M > refused,0
        WORST,M,M > refused,0
        WORST,Z,1 > refused,0
        WORST,2,Z > refused,0
        RECENT,0 > refused,0",
    );
}

/// Every blob size up to past 4,096 pages, and every number of pages up to past 64.
#[test]
fn every_blob_size_and_update() {
    let lines = |r: u64| (0..=66).map(move |n| format!("WORST,{r},{n}"));
    let answers = same_as_model((0..=4_100).flat_map(lines).collect());
    let given = answers.iter().filter(|a| a.starts_with("worst,")).count();
    assert_eq!(given, 1 + 2 + 4 + 8 + 16 + 32 + 6 * 64);
    assert_eq!(count(&answers, "refused,0"), answers.len() - given);
    assert_eq!(count(&answers, "worst,144"), 1);
}

#[test]
fn before_a_format_and_after_a_refused_one() {
    agree_on(&format!(
        "
        {THREE}
        FORMAT,17,4,8,2 > refused,1
        {THREE}
        RECENT,0 > refused,0
        FORMAT,16,4,0,2 > refused,2
        {THREE}
        FORMAT,512,4,8,2 > refused,0
        {THREE}
        FORMAT,16,4,8 > refused,0
        {THREE}
        BEGIN,1 > refused,0
        FORMAT,16,4,8,2 > ok
        {THREE}
        BEGIN,1 > ticket,1
        FORMAT,17,4,8,2 > refused,1
        {THREE}
        BEGIN,1 > ticket,2"
    ));
}

/// The other lines are answered as without it.
#[test]
fn between_all_lines_of_the_example() {
    let rows = EXAMPLE.trim().lines().map(|row| format!("{row}\n{THREE}"));
    agree_on(&rows.collect::<Vec<_>>().join("\n"));
}

#[test]
fn as_the_only_line_and_as_the_last() {
    exact(b"WORST,64,2", "worst,13\n");
    exact(b"WORST,64,2\n", "worst,13\n");
    exact(b"WORST,64,33", "refused,0\n");
    exact(
        b"\nWORST,64,2\nWORST,4096,64",
        "refused,0\nworst,13\nworst,144\n",
    );
    exact(b"FORMAT,16,4,8,2\nWORST,64,2", "ok\nworst,13\n");
    exact(b"WORST,64,2\r\nWORST,64,2", "refused,0\nworst,13\n");
}

/// Each is one change away from a line that is answered.
const MALFORMED: [&[u8]; 43] = [
    b"WORST",
    b"WORST,",
    b"WORST,,",
    b"WORST,64",
    b"WORST,64,",
    b"WORST,,2",
    b"WORST,,64,2",
    b",WORST,64,2",
    b"WORST,64,2,",
    b"WORST,64,2,2",
    b"WORST,0,64,2",
    b"WORST,064,2",
    b"WORST,64,02",
    b"WORST,64,002",
    b"worst,64,2",
    b"Worst,64,2",
    b"WORSt,64,2",
    b"WORS,64,2",
    b"WORSTS,64,2",
    b"WORSE,64,2",
    b" WORST,64,2",
    b"WORST ,64,2",
    b"WORST, 64,2",
    b"WORST,64 ,2",
    b"WORST,64, 2",
    b"WORST,64,2 ",
    b"WORST 64 2",
    b"WORST,64 2",
    b"WORST,64;2",
    b"WORST,+64,2",
    b"WORST,64,+2",
    b"WORST,-64,2",
    b"WORST,64,-2",
    b"WORST,0x40,2",
    b"WORST,64,2.0",
    b"WORST,64,2\r",
    b"WORST,64,2\0",
    b"\0WORST,64,2",
    b"WORST,64,\xb2",
    b"WORST,18446744073709551616,2",
    b"WORST,18446744073709551680,2",
    b"WORST,64,18446744073709551616",
    b"WORST,64,18446744073709551618",
];

/// In a store, and before there is one.
#[test]
fn malformed_lines() {
    let zeros = [&b"WORST,64,"[..], &b"0".repeat(590), b"2"].concat();
    let bad = MALFORMED.iter().map(|line| line.to_vec()).chain([zeros]);
    all_refused_with_0(bad.clone());
    let (mut lines, mut answers) = transcript(THREE);
    for line in bad {
        lines.extend([line, b"WORST,64,2".to_vec()]);
        answers.extend(["refused,0", "worst,13"].map(String::from));
    }
    agree(lines, answers);
}
