//! Lines: rows 20 and 21 in their places, what a branch shares, and what it does not.

use super::malformed::agree_on_largest;
use super::stamps::Resent;
use super::{agree_on, all_refused_with_0, count, same_as_model, transcript, update};

#[test]
fn row_20_no_such_line() {
    agree_on(
        "
        FORMAT,16,8,32,4 > ok
        PUBLISH,1,0 > refused,20
        RECENT,1 > refused,20
        BRANCH,1,0 > refused,20
        READ,1,0,0,0 > refused,20
        SIZE,1,0 > refused,20
        STAMP,1,0,0 > refused,20
        RECENT,16 > refused,20
        RECENT,65536 > refused,20
        RECENT,4294967296 > refused,20
        BRANCH,0,0 > line,1
        PUBLISH,1,0 > waiting
        RECENT,1 > recent,0
        READ,1,0,0,0 > bytes,
        SIZE,1,0 > size,0
        STAMP,1,0,0 > refused,17
        PUBLISH,2,0 > refused,20
        RECENT,2 > refused,20
        BRANCH,2,0 > refused,20
        SIZE,2,0 > refused,20
        BRANCH,1,0 > line,2
        RECENT,2 > recent,0
        RECENT,3 > refused,20
        FORMAT,16,8,32,4 > ok
        RECENT,0 > recent,0
        RECENT,1 > refused,20",
    );
}

/// 20 comes after 7 and 8, and before 12 to 15, 16 and 17.
#[test]
fn row_20_stands_in_its_place() {
    agree_on(
        "
        FORMAT,16,8,1,4 > ok
        WRITE,1,1,0 > refused,7
        APPEND,1,1 > refused,7
        BEGIN,1 > ticket,1
        WRITE,1,1,9 > refused,20
        APPEND,1,1 > refused,20
        WRITE,0,1,9 > refused,12
        PUT,1,0,<11> > put
        WRITE,1,1,9 > refused,20
        WRITE,0,1,9 > refused,13
        WRITE,1,2,0 > refused,7
        APPEND,0,1 > version,1,1
        WRITE,1,1,9 > refused,8
        APPEND,1,1 > refused,8
        APPEND,18446744073709551615,1 > refused,8
        BEGIN,2 > ticket,2
        PUT,2,0,<21> > put
        PUT,2,1,<22> > put
        APPEND,1,2 > refused,20
        APPEND,0,2 > refused,15
        READ,1,1,99,1 > refused,20
        READ,0,1,99,1 > refused,16
        SIZE,1,1 > refused,20
        STAMP,1,1,99 > refused,20
        BRANCH,1,1 > refused,20
        BRANCH,0,1 > refused,16
        READ,1,1,0,257 > refused,0",
    );
}

/// Sixteen lines, the last one last; 21 comes after 20 and 16.
#[test]
fn row_21_sixteen_lines_exist() {
    let mut text = "FORMAT,16,8,32,4 > ok\n".to_string();
    for line in 1..16 {
        text += &format!("BRANCH,{},0 > line,{line}\n", line / 2);
    }
    text += "
        BRANCH,0,0 > refused,21
        BRANCH,15,0 > refused,21
        BRANCH,0,1 > refused,16
        BRANCH,16,0 > refused,20
        BRANCH,16,1 > refused,20
        RECENT,15 > recent,0
        RECENT,16 > refused,20
        BEGIN,1 > ticket,1
        PUT,1,0,<11> > put
        APPEND,16,1 > refused,20
        APPEND,15,1 > version,1,1
        WEAVE,1 > node,983041,0,1,0,0,0
        PUBLISH,0,0 > waiting
        PUBLISH,15,0 > published,1
        READ,15,1,0,1 > bytes,11
        READ,14,1,0,1 > refused,16
        BRANCH,15,1 > refused,21";
    agree_on(&text);
}

/// BRANCH asks for a version that is published on its line: woven and assigned is not enough, nor is another line's.
#[test]
fn row_16_of_branch() {
    agree_on(
        "
        FORMAT,16,8,32,4 > ok
        BRANCH,0,0 > line,1
        BEGIN,1 > ticket,1
        PUT,1,0,<11> > put
        BRANCH,0,1 > refused,16
        APPEND,0,1 > version,1,1
        BRANCH,0,1 > refused,16
        WEAVE,1 > node,1,0,1,0,0,0
        BRANCH,0,1 > refused,16
        PUBLISH,0,0 > published,1
        BRANCH,1,1 > refused,16
        BRANCH,0,2 > refused,16
        BRANCH,0,4294967297 > refused,16
        BRANCH,0,1 > line,2
        BRANCH,2,1 > line,3
        BRANCH,2,2 > refused,16
        RECENT,2 > recent,1
        RECENT,3 > recent,1
        RECENT,1 > recent,0
        READ,3,1,0,1 > bytes,11
        READ,1,1,0,1 > refused,16",
    );
}

/// Line 1 begins with version 1 while version 2 of line 0 is published too, and version 3 in work. Each goes on by itself.
#[test]
fn a_branch_reads_as_its_source_and_goes_on_by_itself() {
    agree_on(
        "
        FORMAT,16,16,64,8 > ok
        BEGIN,2 > ticket,1
        PUT,1,0,<11> > put
        PUT,1,1,<12> > put
        APPEND,0,1 > version,1,3
        WEAVE,1 > node,1,0,2,1,1,2
        WEAVE,1 > node,1,0,1,0,0,1
        WEAVE,1 > node,1,1,1,1,0,0
        PUBLISH,0,0 > published,1
        BEGIN,1 > ticket,2
        PUT,2,0,<21> > put
        WRITE,0,2,0 > version,2,2
        WEAVE,2 > node,2,0,2,2,1,1
        WEAVE,2 > node,2,0,1,2,0,0
        PUBLISH,0,0 > published,2
        BEGIN,1 > ticket,3
        PUT,3,0,<31> > put
        APPEND,0,3 > version,3,3
        BRANCH,0,1 > line,1
        RECENT,1 > recent,1
        SIZE,1,1 > size,32
        READ,1,1,15,2 > bytes,1112
        STAMP,1,1,1 > stamp,1
        SIZE,1,2 > refused,16
        PUBLISH,1,0 > waiting
        BEGIN,1 > ticket,4
        PUT,4,0,<41> > put
        APPEND,1,4 > version,2,3
        WEAVE,4 > node,65538,0,4,1,65538,2
        WEAVE,4 > node,65538,2,2,65538,0,1
        WEAVE,4 > node,65538,2,1,4,0,0
        PUBLISH,0,0 > waiting
        PUBLISH,1,0 > published,2
        RECENT,0 > recent,2
        SIZE,1,2 > size,48
        READ,1,2,0,1 > bytes,11
        READ,1,2,31,2 > bytes,1241
        STAMP,1,2,0 > stamp,1
        STAMP,1,2,2 > stamp,2
        READ,0,2,0,1 > bytes,21
        READ,0,2,15,2 > bytes,2112
        SIZE,0,2 > size,32
        SIZE,0,3 > refused,16
        SIZE,1,3 > refused,16
        WEAVE,3 > node,3,0,4,2,3,2
        WEAVE,3 > node,3,2,2,3,0,1
        WEAVE,3 > node,3,2,1,3,0,0
        PUBLISH,1,0 > waiting
        PUBLISH,0,0 > published,3
        READ,0,3,31,2 > bytes,1231
        READ,1,2,31,2 > bytes,1241
        READ,1,1,0,1 > bytes,11",
    );
}

/// `BRANCH,l,0` begins an empty line, whatever line l has.
#[test]
fn a_branch_from_version_0_is_empty() {
    agree_on(
        "
        FORMAT,16,8,32,4 > ok
        BEGIN,2 > ticket,1
        PUT,1,0,<11> > put
        PUT,1,1,<12> > put
        APPEND,0,1 > version,1,3
        WEAVE,1 > node,1,0,2,1,1,2
        WEAVE,1 > node,1,0,1,0,0,1
        WEAVE,1 > node,1,1,1,1,0,0
        PUBLISH,0,0 > published,1
        BRANCH,0,0 > line,1
        RECENT,1 > recent,0
        SIZE,1,0 > size,0
        SIZE,1,1 > refused,16
        READ,1,0,0,0 > bytes,
        READ,1,0,0,1 > refused,17
        STAMP,1,0,0 > refused,17
        BEGIN,1 > ticket,2
        PUT,2,0,<21> > put
        WRITE,1,2,1 > refused,13
        WRITE,1,2,0 > version,1,1
        WEAVE,2 > node,65537,0,1,2,0,0
        PUBLISH,1,0 > published,1
        READ,1,1,0,1 > bytes,21
        SIZE,1,1 > size,16
        STAMP,1,1,0 > stamp,1
        READ,0,1,0,1 > bytes,11
        BRANCH,1,0 > line,2
        RECENT,2 > recent,0",
    );
}

/// A child's number is that of the line on which its update got its version: line 2 reads line 1's and line 0's.
#[test]
fn child_numbers_name_the_owners_line() {
    agree_on(
        "
        FORMAT,16,16,64,8 > ok
        BEGIN,4 > ticket,1
        PUT,1,0,<10> > put
        PUT,1,1,<11> > put
        PUT,1,2,<12> > put
        PUT,1,3,<13> > put
        APPEND,0,1 > version,1,7
        WEAVE,1 > node,1,0,4,1,1,6
        WEAVE,1 > node,1,0,2,1,1,5
        WEAVE,1 > node,1,0,1,0,0,4
        WEAVE,1 > node,1,1,1,1,0,3
        WEAVE,1 > node,1,2,2,1,1,2
        WEAVE,1 > node,1,2,1,2,0,1
        WEAVE,1 > node,1,3,1,3,0,0
        PUBLISH,0,0 > published,1
        BRANCH,0,1 > line,1
        BEGIN,1 > ticket,2
        PUT,2,0,<20> > put
        WRITE,1,2,0 > version,2,3
        WEAVE,2 > node,65538,0,4,65538,1,2
        WEAVE,2 > node,65538,0,2,65538,1,1
        WEAVE,2 > node,65538,0,1,4,0,0
        PUBLISH,1,0 > published,2
        BRANCH,1,2 > line,2
        BEGIN,1 > ticket,3
        PUT,3,0,<30> > put
        WRITE,0,3,3 > version,2,3
        BEGIN,1 > ticket,4
        PUT,4,0,<40> > put
        WRITE,2,4,1 > version,3,3
        WEAVE,4 > node,131075,0,4,131075,1,2
        WEAVE,4 > node,131075,0,2,65538,131075,1
        WEAVE,4 > node,131075,1,1,6,0,0
        WEAVE,3 > node,2,0,4,1,2,2
        WEAVE,3 > node,2,2,2,1,2,1
        WEAVE,3 > node,2,3,1,5,0,0
        PUBLISH,2,0 > published,3
        PUBLISH,0,0 > published,2
        READ,2,3,15,2 > bytes,2040
        READ,2,3,47,2 > bytes,1213
        READ,0,2,47,2 > bytes,1230
        READ,1,2,0,1 > bytes,20
        STAMP,2,3,0 > stamp,2
        STAMP,2,3,1 > stamp,3
        STAMP,2,3,2 > stamp,1
        STAMP,0,2,3 > stamp,2",
    );
}

/// 13 and an append's place go by the line's own last assigned version, shared ones included, published or not.
#[test]
fn row_13_by_the_lines_own_size() {
    agree_on(
        "
        FORMAT,16,16,64,8 > ok
        BEGIN,1 > ticket,1
        PUT,1,0,<11> > put
        APPEND,0,1 > version,1,1
        WEAVE,1 > node,1,0,1,0,0,0
        PUBLISH,0,0 > published,1
        BRANCH,0,1 > line,1
        BEGIN,3 > ticket,2
        PUT,2,0,<21> > put
        PUT,2,1,<22> > put
        PUT,2,2,<23> > put
        APPEND,0,2 > version,2,6
        BEGIN,1 > ticket,3
        PUT,3,0,<31> > put
        WRITE,1,3,4 > refused,13
        WRITE,1,3,2 > refused,13
        WRITE,1,3,1 > version,2,2
        BEGIN,1 > ticket,4
        PUT,4,0,<41> > put
        WRITE,1,4,3 > refused,13
        WRITE,0,4,5 > refused,13
        WRITE,0,4,4 > version,3,4
        BEGIN,1 > ticket,5
        PUT,5,0,<51> > put
        APPEND,1,5 > version,3,3
        WEAVE,5 > node,65539,0,4,65538,65539,2",
    );
}

/// A ticket has one version, on one line.
#[test]
fn row_8_for_a_ticket_assigned_on_another_line() {
    agree_on(
        "
        FORMAT,16,8,32,4 > ok
        BRANCH,0,0 > line,1
        BEGIN,1 > ticket,1
        PUT,1,0,<11> > put
        APPEND,1,1 > version,1,1
        APPEND,0,1 > refused,8
        WRITE,0,1,0 > refused,8
        PUT,1,0,<11> > refused,8
        WEAVE,1 > node,65537,0,1,0,0,0
        PUBLISH,0,0 > waiting
        PUBLISH,1,0 > published,1",
    );
}

/// Versions of the same number on both lines, woven in turns: neither takes the other's, woven or not.
#[test]
fn the_same_version_numbers_on_two_lines() {
    agree_on(
        "
        FORMAT,16,16,64,8 > ok
        BRANCH,0,0 > line,1
        BEGIN,1 > ticket,1
        BEGIN,1 > ticket,2
        BEGIN,1 > ticket,3
        BEGIN,1 > ticket,4
        PUT,1,0,<11> > put
        PUT,2,0,<22> > put
        PUT,3,0,<33> > put
        PUT,4,0,<44> > put
        APPEND,0,1 > version,1,1
        APPEND,1,2 > version,1,1
        WRITE,1,3,0 > version,2,1
        APPEND,0,4 > version,2,2
        WEAVE,4 > node,2,0,2,1,2,1
        WEAVE,3 > node,65538,0,1,2,0,0
        PUBLISH,1,0 > waiting
        WEAVE,2 > node,65537,0,1,1,0,0
        PUBLISH,1,0 > published,1
        PUBLISH,1,0 > published,2
        PUBLISH,0,0 > waiting
        WEAVE,1 > node,1,0,1,0,0,0
        PUBLISH,0,0 > published,1
        PUBLISH,0,0 > waiting
        WEAVE,4 > node,2,1,1,3,0,0
        PUBLISH,0,0 > published,2
        READ,0,1,0,1 > bytes,11
        READ,1,1,0,1 > bytes,22
        READ,1,2,0,1 > bytes,33
        READ,0,2,15,2 > bytes,1144
        SIZE,1,2 > size,16
        SIZE,0,2 > size,32",
    );
}

/// Sixteen lines in a chain, each with an update of its own, from the version that the line before it made.
#[test]
fn sixteen_lines_in_a_chain() {
    let mut lines = vec!["FORMAT,16,64,256,32".to_string()];
    for line in 0..16 {
        let ticket = line + 1;
        lines.extend(update(ticket, 1, &format!("APPEND,{line},{ticket}")));
        lines.extend(vec![format!("WEAVE,{ticket}"); 5]);
        lines.push(format!("PUBLISH,{line},0"));
        lines.push(format!("BRANCH,{line},{ticket}"));
    }
    for line in 0..16 {
        lines.push(format!("RECENT,{line}"));
        for v in 1..=line + 2 {
            lines.push(format!("READ,{line},{v},0,{}", 16 * v.min(16)));
            lines.push(format!("STAMP,{line},{v},{}", v - 1));
        }
    }
    let answers = same_as_model(lines);
    assert_eq!(count(&answers, "line,15"), 1);
    assert_eq!(count(&answers, "refused,21"), 1);
    assert_eq!(count(&answers, "refused,16"), 2 * 16);
    assert_eq!(count(&answers, "stamp,16"), 1);
    assert_eq!(count(&answers, "stamp,1"), 16);
    let last = answers.iter().rfind(|answer| answer.starts_with("node"));
    assert_eq!(last.map(String::as_str), Some("node,983056,15,1,15,0,0"));
}

/// Refused, BRANCH begins nothing and FORMAT leaves the lines; accepted, FORMAT leaves line 0 alone.
#[test]
fn lines_and_format() {
    let (lines, answers) = transcript(
        "
        BRANCH,0,0 > refused,0
        FORMAT,16,4,8,2 > ok
        BRANCH,0,1 > refused,16
        BRANCH,0,0 > line,1
        FORMAT,17,4,8,2 > refused,1
        RECENT,1 > recent,0
        BRANCH,1,0 > line,2
        FORMAT,16,4,8,2 > ok
        RECENT,1 > refused,20
        BRANCH,0,0 > line,1",
    );
    super::agree(lines, answers);
}

fn branch(script: &mut Resent, line: u64, v: u64) {
    script.lines.push(format!("BRANCH,{line},{v}"));
}

/// The versions that a branch shares count as its own, also past a branch of a branch; another line's do not.
#[test]
fn a_page_resent_on_a_branch() {
    let mut script = Resent::new(16);
    script.update(0, 0, &[1, 2]);
    script.update(0, 0, &[1, 3]);
    branch(&mut script, 0, 2);
    script.update(0, 0, &[5, 3]);
    script.update(1, 0, &[1, 2]);
    script.update(1, 1, &[2]);
    branch(&mut script, 1, 4);
    script.update(2, 0, &[1, 2, 2]);
    branch(&mut script, 0, 1);
    script.update(3, 0, &[1, 2]);
    branch(&mut script, 0, 0);
    script.update(4, 0, &[1, 2]);
    script.stamps(0, 2, &[1, 2]);
    script.stamps(1, 2, &[1, 2]);
    script.stamps(0, 3, &[3, 2]);
    script.stamps(1, 3, &[1, 3]);
    script.stamps(1, 4, &[1, 3]);
    script.stamps(2, 4, &[1, 3]);
    script.stamps(2, 5, &[1, 3, 5]);
    script.stamps(3, 1, &[1, 1]);
    script.stamps(3, 2, &[1, 1]);
    script.stamps(4, 1, &[1, 1]);
    script.agree();
}

#[test]
fn malformed_lines_of_branch() {
    let (words, numbers) = (
        ["BRANCH", "BRANCH,", "branch,0,0"],
        ["0", "0,", "0,0,0", ",0"],
    );
    let with_numbers = numbers.map(|numbers| format!("BRANCH,{numbers}"));
    all_refused_with_0(words.map(String::from).into_iter().chain(with_numbers));
}

#[test]
fn the_largest_numbers_of_branch() {
    agree_on_largest(
        "
        FORMAT,16,4,8,2 > ok
        BRANCH,M,0 > refused,20
        BRANCH,0,M > refused,16
        BRANCH,M,M > refused,20
        BRANCH,Z,0 > refused,0
        BRANCH,0,Z > refused,0
        BRANCH,0,0 > line,1",
    );
}
