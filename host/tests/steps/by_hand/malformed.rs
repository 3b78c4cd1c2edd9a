//! Malformed lines of every sort.

use super::{agree_on, all_refused_with_0, count, same_as_model};
use crate::scripts::WORDS;

/// 2^64 - 1, the largest number, and 2^64, which is none.
const LARGEST: &str = "18446744073709551615";
const TOO_LARGE: &str = "18446744073709551616";

#[test]
fn malformed_lines() {
    let bad: [&[u8]; 89] = [
        b"",
        b",",
        b"\0",
        b"\r",
        b" ",
        b"\t",
        b"RECENT",
        b"RECENT,",
        b"RECENT,,0",
        b"RECENT,0\r",
        b"RECENT,0\0",
        b"RECENT,0 ",
        b" RECENT,0",
        b"\0RECENT,0",
        b"RECENT,0,",
        b",RECENT,0",
        b"RECENT,0,0",
        b"RECENT,0RECENT,0",
        b"RECEN,0",
        b"RECENTS,0",
        b"recent,0",
        b"Recent,0",
        b"\xefRECENT,0",
        b"\xef\xbb\xbfRECENT,0",
        b"RECENT,0\x80",
        b"\xff",
        b"\xd2ECENT,0",
        b"PUBLISH",
        b"PUBLISH,",
        b"PUBLISH,0",
        b"PUBLISH,0,",
        b"PUBLISH,,0",
        b"PUBLISH,0,0,",
        b"PUBLISH,0,0,0",
        b"PUBLISH,0 0",
        b"publish,0,0",
        b"HELD,0,0",
        b"LINE,0,0",
        b"BEGIN",
        b"BEGIN,",
        b"BEGIN,,",
        b"BEGIN,,1",
        b"BEGIN,1,",
        b"BEGIN,1,1",
        b"BEGIN 1",
        b"BEGIN;1",
        b"BEGIN1",
        b"begin,1",
        b"Begin,1",
        b"\"BEGIN\",1",
        b"BEGIN,\"1\"",
        b"BEGIN,1\r",
        b"BEGIN,1\0",
        b"BEGIN\0,1",
        b"BEGIN,\xd9\xa1",
        b"BEGIN,\xb2",
        b"BEGIN,1\x0b",
        b"BEGIN,1/",
        b"BEGIN,:",
        b"SIZE",
        b"SIZE,0",
        b"SIZE,0,0,0",
        b"READ,0,0,0",
        b"READ,0,0,0,0,0",
        b"STAMP,0,0",
        b"STAMP,0,0,0,0",
        b"WRITE,0,1",
        b"WRITE,0,1,0,0",
        b"APPEND",
        b"APPEND,1",
        b"APPEND,0,1,0",
        b"WEAVE",
        b"WEAVE,1,1",
        b"FORMAT",
        b"FORMAT,16,4,8",
        b"FORMAT,16,4,8,2,1",
        b"FORMAT,16,4,8,2,",
        b"format,16,4,8,2",
        b"VIEW,0,0,0",
        b"ASSIGN,0,1",
        b"ASSIGN,0,1,0",
        b"HELLO",
        b"PUT,1",
        b"PUT,1,0",
        b"PUT,1,0,,",
        b"PUT,1,,11111111111111111111111111111111",
        b"PUT,,0,11111111111111111111111111111111",
        b"PUT,1,0,11111111111111111111111111111111,",
        b"PUT,1,0,11111111111111111111111111111111,11",
    ];
    all_refused_with_0(bad);
}

#[test]
fn malformed_page_bytes() {
    let good = "1".repeat(30);
    let mut bad = vec![format!("{good}1"), format!("{good}111"), "1".to_string()];
    let pairs = [
        "AA", "aA", "Aa", "FF", "1F", "gg", "1g", "g1", "0x", "x0", " 1", "1 ", "1\r", "1\0", "1/",
        "1:", "1@", "1`", "-1", "+1", "\u{e9}",
    ];
    bad.extend(pairs.map(|pair| format!("{good}{pair}")));
    bad.extend(pairs.map(|pair| format!("{pair}{good}")));
    let lines = bad.iter().map(|bytes| format!("PUT,1,0,{bytes}"));
    all_refused_with_0(lines);
    let every_digit = "PUT,1,0,000102030405060708090a0b0c0d0e0f";
    agree_on(&format!(
        "FORMAT,16,4,8,2 > ok\nBEGIN,1 > ticket,1\n{every_digit} > put"
    ));
}

/// A line of every word with one number after the other replaced; with 2, none is refused with 0.
fn with_number(replaced: &[u8]) -> Vec<Vec<u8>> {
    let mut lines = vec![];
    for (word, count) in WORDS {
        let mut fields = vec![word.as_bytes()];
        fields.extend(vec![&b"1"[..]; count]);
        if word == "WORST" {
            fields[1] = b"4"; // of one page it is refused with 0
        }
        fields.extend((word == "PUT").then_some(&b"11"[..]));
        lines.extend((1..=count).map(|at| {
            let mut fields = fields.clone();
            fields[at] = replaced;
            fields.join(&b","[..])
        }));
    }
    lines
}

#[test]
fn malformed_numbers_in_every_field() {
    let bad: [&[u8]; 26] = [
        b"",
        b"+1",
        b"-1",
        b"-0",
        b"01",
        b"00",
        b"001",
        b" 1",
        b"1 ",
        b"1\0",
        b"1\r",
        b"1\t",
        b"0x1",
        b"a",
        b"1.0",
        b"1e0",
        b"1_0",
        b"\xb2",
        b"\xef\xbc\x91",
        TOO_LARGE.as_bytes(),
        b"18446744073709551617",
        b"18446744073709551620",
        b"36893488147419103233",
        b"184467440737095516161",
        b"99999999999999999999",
        b"184467440737095516150000000000000000000000000000000000000000001",
    ];
    let right = [vec![b"FORMAT,16,4,8,2".to_vec()], with_number(b"2")].concat();
    assert_eq!(count(&same_as_model(right), "refused,0"), 0);
    let lines = bad.iter().flat_map(|number| with_number(number));
    all_refused_with_0(lines);
    let zeros = [b"0".repeat(20), b"0".repeat(500), b"9".repeat(500)];
    let lines = zeros.iter().flat_map(|number| with_number(number));
    all_refused_with_0(lines);
}

#[test]
fn the_largest_number_in_every_field() {
    let text = "
        FORMAT,M,4,8,2 > refused,0
        FORMAT,16,M,8,2 > refused,0
        FORMAT,16,4,M,2 > refused,0
        FORMAT,16,4,8,M > refused,0
        FORMAT,0,M,8,2 > refused,1
        FORMAT,0,Z,8,2 > refused,0
        FORMAT,M,M,M,M > refused,0
        FORMAT,16,4,8,2 > ok
        BEGIN,M > refused,4
        BEGIN,1 > ticket,1
        PUT,M,0,<11> > refused,7
        PUT,1,M,<11> > refused,9
        PUT,1,0,<11> > put
        WRITE,0,M,0 > refused,7
        WRITE,M,1,0 > refused,20
        WRITE,0,1,M > refused,13
        APPEND,0,M > refused,7
        APPEND,M,1 > refused,20
        WEAVE,M > refused,7
        PUBLISH,M,0 > refused,20
        PUBLISH,0,M > refused,22
        PUBLISH,M,M > refused,20
        APPEND,0,1 > version,1,1
        WEAVE,1 > node,1,0,1,0,0,0
        PUBLISH,0,0 > published,1
        READ,M,1,0,0 > refused,20
        READ,0,M,0,0 > refused,16
        READ,0,1,M,0 > refused,17
        READ,0,1,M,1 > refused,17
        READ,0,1,M,256 > refused,17
        READ,0,1,0,M > refused,0
        READ,M,M,M,M > refused,0
        SIZE,M,1 > refused,20
        SIZE,0,M > refused,16
        RECENT,M > refused,20
        STAMP,M,1,0 > refused,20
        STAMP,0,M,0 > refused,16
        STAMP,0,1,M > refused,17
        STAMP,0,M,M > refused,16
        BEGIN,Z > refused,0
        WEAVE,Z > refused,0
        PUBLISH,Z,0 > refused,0
        PUBLISH,0,Z > refused,0
        RECENT,Z > refused,0
        SIZE,0,Z > refused,0
        READ,Z,1,0,0 > refused,0
        READ,0,1,Z,0 > refused,0
        STAMP,0,1,Z > refused,0";
    agree_on_largest(text);
}

/// Compares with a script by hand, in which `M` is the largest number, and `Z` the one after it.
pub fn agree_on_largest(text: &str) {
    agree_on(
        &text
            .replace(",M", &format!(",{LARGEST}"))
            .replace(",Z", &format!(",{TOO_LARGE}")),
    );
}

#[test]
fn every_byte_at_every_place_of_a_line() {
    let mut lines = vec![b"FORMAT,16,4,8,2".to_vec()];
    for byte in (0..=255).filter(|byte| *byte != b'\n') {
        lines.push(vec![byte]);
        for line in [
            &b"SIZE,0,0"[..],
            b"RECENT,0",
            b"PUBLISH,0,9",
            b"PUT,0,0,1f",
            b"WORST,64,2",
        ] {
            for at in 0..=line.len() {
                lines.push([&line[..at], &[byte], &line[at..]].concat());
                lines.push([&line[..at], &[byte], &line[(at + 1).min(line.len())..]].concat());
            }
        }
    }
    same_as_model(lines);
}

#[test]
fn lines_of_600_and_601_bytes() {
    let digits = |count| "1".repeat(count);
    let mut text = "FORMAT,256,128,2048,256 > ok\n".to_string();
    for ticket in 1..=10 {
        text += &format!("BEGIN,1 > ticket,{ticket}\n");
    }
    text += &format!("PUT,1,0,{} > refused,11\n", digits(592));
    text += &format!("PUT,10,0,{} > refused,11\n", digits(590));
    text += &format!("PUT,10,10,{} > refused,9\n", digits(590));
    text += &format!("PUT,10,0,{} > refused,0\n", digits(592));
    text += &format!("PUT,10,100,{} > refused,0\n", digits(590));
    text += &format!("PUT,1,0,{} > refused,0\n", digits(593));
    text += &format!("PUT,1,0,{} > refused,0\n", digits(594));
    text += &format!("PUT,1,0,{} > put\n", digits(512));
    text += "RECENT,0 > recent,0";
    agree_on(&text);
}

/// Long lines give one answer each, whatever their front, their end or a part of them would ask for.
#[test]
fn lines_far_above_600_bytes() {
    let put = [&b"PUT,1,0,"[..], &b"1".repeat(592)].concat();
    let mut bad = vec![
        [&put[..], b"1"].concat(),
        [b"1", &put[..]].concat(),
        [&put[..], &put[..]].concat(),
        [&b"A".repeat(600)[..], b"RECENT,0"].concat(),
        [&b"A".repeat(601)[..], b"RECENT,0"].concat(),
        [&b"RECENT,0\0"[..], &b"\0".repeat(600)].concat(),
        [&b"RECENT,0,"[..], &b",".repeat(600)].concat(),
        b"RECENT,0".repeat(200),
        b"\r".repeat(700),
        b"\xff".repeat(5_000),
        b"0".repeat(1_000_000),
    ];
    let around = [
        600, 1_024, 1_200, 1_800, 2_048, 4_096, 8_192, 16_384, 65_536,
    ];
    for length in around {
        bad.extend((length - 1..=length + 2).map(|length| b"A".repeat(length)));
        bad.push([&b"A".repeat(length)[..], b"RECENT,0"].concat());
    }
    all_refused_with_0(bad);
}
