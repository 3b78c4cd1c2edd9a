//! Blast windows. The step program has no line that sets them, so a host's scripts do, and the library answers.

use super::{agree_on, all_refused_with_0, transcript};
use crate::library;
use crate::model::text::Program;
use crate::scripts::Script;

/// Compares the library with a host's script by hand, in which `;` is a line feed; and the model with it too.
fn host_agrees_on(text: &str) {
    let (mut lines, answers) = transcript(text);
    for byte in lines.iter_mut().flatten().filter(|byte| **byte == b';') {
        *byte = b'\n';
    }
    let name = "by hand, of a host".to_string();
    library::check(&Script {
        name,
        lines,
        answers,
        ..Script::default()
    });
}

/// Compares the library with the model, line by line of a host, and gives the answers.
pub fn host_same_as_model(lines: Vec<Vec<u8>>) -> Vec<String> {
    let mut model = Program::default();
    let answers: Vec<String> = lines.iter().map(|l| model.answer_to_host(l)).collect();
    library::check(&Script {
        name: "by the model, of a host".to_string(),
        lines,
        answers: answers.clone(),
        ..Script::default()
    });
    answers
}

/// Row by row what PUBLISH answers at these minutes, with these windows and nothing due.
fn held_at(windows: &str, held: &[u64], waiting: &[u64]) {
    let mut text = format!("FORMAT,16,4,8,2 > ok\nSETWINDOWS,{windows} > done\n");
    for minute in held {
        text += &format!("PUBLISH,0,{minute} > held\n");
    }
    for minute in waiting {
        text += &format!("PUBLISH,0,{minute} > waiting\n");
    }
    host_agrees_on(&text);
}

/// The lines of a list of so many windows, a minute each, from minute 0 on.
pub fn list(count: u64) -> Vec<String> {
    (0..count).map(|k| format!("{k},{}", k + 1)).collect()
}

#[test]
fn lists_of_0_1_32_and_33_windows() {
    let list = |count| list(count).join(";") + ";";
    let (most, too_many) = (list(32), list(33));
    host_agrees_on(&format!(
        "
        FORMAT,16,4,8,2 > ok
        PUBLISH,0,0 > waiting
        SETWINDOWS,{most} > done
        PUBLISH,0,0 > held
        PUBLISH,0,31 > held
        PUBLISH,0,32 > waiting
        SETWINDOWS,{too_many} > refused,24
        PUBLISH,0,31 > held
        PUBLISH,0,32 > waiting
        SETWINDOWS,0,1; > done
        PUBLISH,0,0 > held
        PUBLISH,0,1 > waiting
        PUBLISH,0,31 > waiting
        SETWINDOWS, > done
        PUBLISH,0,0 > waiting"
    ));
}

#[test]
fn windows_of_one_minute_and_of_all_but_one() {
    held_at("0,1;10079,0;", &[0, 10_079], &[1, 2, 5_000, 10_078]);
    held_at("0,1;", &[0], &[1, 10_078, 10_079]);
    held_at("10079,0;", &[10_079], &[0, 1, 10_078]);
    held_at("10078,10079;", &[10_078], &[0, 10_077, 10_079]);
    held_at("0,10079;", &[0, 1, 10_078], &[10_079]);
    held_at("1,0;", &[1, 2, 10_079], &[0]);
    held_at("10079,10078;", &[10_079, 0, 10_077], &[10_078]);
    held_at("5,4;", &[5, 6, 10_079, 0, 3], &[4]);
}

#[test]
fn a_window_at_its_four_edges() {
    held_at("480,540;", &[480, 539], &[479, 540, 0, 10_079]);
    held_at("0,60;", &[0, 59], &[60, 10_079]);
    held_at("10000,10079;", &[10_000, 10_078], &[9_999, 10_079, 0]);
}

#[test]
fn a_window_over_the_weeks_end_at_its_four_edges() {
    held_at("10000,50;", &[10_000, 10_079, 0, 49], &[9_999, 50, 5_000]);
    held_at("10079,1;", &[10_079, 0], &[10_078, 1]);
    held_at("5041,5040;", &[5_041, 10_079, 0, 5_039], &[5_040]);
}

/// In any order, one over the other, end to end, and twice the same.
#[test]
fn windows_beside_and_over_each_other() {
    let list = "300,400;100,200;150,250;400,410;100,200;10070,5;0,7;";
    let held = [100, 199, 200, 249, 300, 399, 400, 409, 10_070, 0, 5, 6];
    held_at(list, &held, &[7, 99, 250, 299, 410, 10_069]);
}

#[test]
fn row_22_no_minute_of_the_week() {
    agree_on(
        "
        FORMAT,16,4,8,2 > ok
        PUBLISH,0,10079 > waiting
        PUBLISH,0,10080 > refused,22
        PUBLISH,0,10081 > refused,22
        PUBLISH,0,20159 > refused,22
        PUBLISH,0,65536 > refused,22
        PUBLISH,0,4294967296 > refused,22
        PUBLISH,1,10079 > refused,20
        PUBLISH,1,10080 > refused,20
        BEGIN,1 > ticket,1
        PUT,1,0,<11> > put
        APPEND,0,1 > version,1,1
        WEAVE,1 > node,1,0,1,0,0,0
        PUBLISH,0,10080 > refused,22
        RECENT,0 > recent,0
        PUBLISH,0,10079 > published,1
        PUBLISH,0,10080 > refused,22
        RECENT,0 > recent,1",
    );
}

/// 20 comes before 22, and 22 before held.
#[test]
fn rows_20_and_22_come_before_held() {
    host_agrees_on(
        "
        FORMAT,16,4,8,2 > ok
        SETWINDOWS,0,10079;10079,0; > done
        PUBLISH,0,0 > held
        PUBLISH,0,10079 > held
        PUBLISH,0,10080 > refused,22
        PUBLISH,0,18446744073709551615 > refused,22
        PUBLISH,1,10080 > refused,20
        PUBLISH,1,0 > refused,20",
    );
}

#[test]
fn row_23_a_line_that_is_no_window() {
    host_agrees_on(
        "
        FORMAT,16,4,8,2 > ok
        SETWINDOWS,7,7; > refused,23
        SETWINDOWS,0,0; > refused,23
        SETWINDOWS,10079,10079; > refused,23
        SETWINDOWS,0,10079; > done
        SETWINDOWS,0,10080; > refused,23
        SETWINDOWS,10080,0; > refused,23
        SETWINDOWS,10079,0; > done
        SETWINDOWS,1,2 > refused,23
        SETWINDOWS,1,2;3,4 > refused,23
        SETWINDOWS,1,2;3 > refused,23
        SETWINDOWS,; > refused,23
        SETWINDOWS,;1,2; > refused,23
        SETWINDOWS,1,2;; > refused,23
        SETWINDOWS,1,2;;3,4; > refused,23
        SETWINDOWS,1,2,; > refused,23
        SETWINDOWS,1,2,3,4; > refused,23
        SETWINDOWS,1, 2; > refused,23
        SETWINDOWS,01,2; > refused,23
        PUBLISH,0,10079 > held
        PUBLISH,0,1 > waiting",
    );
}

/// 23 comes before 24, wherever the wrong line is.
#[test]
fn rows_23_and_24_of_long_lists() {
    let list = |count| list(count).join(";") + ";";
    let (most, too_many) = (list(32), list(33));
    host_agrees_on(&format!(
        "
        FORMAT,16,4,8,2 > ok
        SETWINDOWS,{too_many} > refused,24
        SETWINDOWS,{most}5,5; > refused,23
        SETWINDOWS,{most}; > refused,23
        SETWINDOWS,{most}5,6 > refused,23
        SETWINDOWS,{most}5,6 ; > refused,23
        SETWINDOWS,{most}5,10080; > refused,23
        SETWINDOWS,{too_many}{too_many}{too_many} > refused,24
        SETWINDOWS,{too_many}{too_many}x;{too_many} > refused,23
        SETWINDOWS,5,5;{too_many} > refused,23
        PUBLISH,0,0 > waiting
        SETWINDOWS,{most} > done
        PUBLISH,0,0 > held"
    ));
}

#[test]
fn a_new_list_replaces_the_old_one_whole_and_a_refused_one_leaves_it() {
    host_agrees_on(
        "
        FORMAT,16,4,8,2 > ok
        SETWINDOWS,100,200;300,400;500,600; > done
        PUBLISH,0,100 > held
        PUBLISH,0,599 > held
        SETWINDOWS,700,800;500,500; > refused,23
        PUBLISH,0,100 > held
        PUBLISH,0,300 > held
        PUBLISH,0,500 > held
        PUBLISH,0,700 > waiting
        SETWINDOWS,700,800; > done
        PUBLISH,0,100 > waiting
        PUBLISH,0,300 > waiting
        PUBLISH,0,500 > waiting
        PUBLISH,0,700 > held
        FORMAT,17,4,8,2 > refused,1
        PUBLISH,0,700 > held
        FORMAT,16,4,8,2 > ok
        PUBLISH,0,700 > waiting",
    );
}

/// A version that is due waits for the window's end; only the minute given decides, not the ones before it.
#[test]
fn a_due_version_is_held_and_published_after() {
    host_agrees_on(
        "
        FORMAT,16,4,8,2 > ok
        SETWINDOWS,100,200; > done
        BEGIN,1 > ticket,1
        PUT,1,0,<11> > put
        APPEND,0,1 > version,1,1
        PUBLISH,0,150 > held
        PUBLISH,0,250 > waiting
        WEAVE,1 > node,1,0,1,0,0,0
        PUBLISH,0,100 > held
        PUBLISH,0,199 > held
        RECENT,0 > recent,0
        READ,0,1,0,1 > refused,16
        PUBLISH,0,200 > published,1
        READ,0,1,0,1 > bytes,11
        PUBLISH,0,200 > waiting
        PUBLISH,0,150 > held
        READ,0,1,0,1 > bytes,11
        RECENT,0 > recent,1",
    );
}

/// The step program has no line that sets them.
#[test]
fn the_step_program_sets_no_windows() {
    all_refused_with_0(["SETWINDOWS", "SETWINDOWS,", "SETWINDOWS,0,1"]);
}
