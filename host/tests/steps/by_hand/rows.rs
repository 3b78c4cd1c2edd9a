//! The table, row by row. 3 and 19 never arise in a formatted store.

use super::{agree_on, count, page, same_as_model, update};

#[test]
fn row_1_page_size_not_allowed() {
    agree_on(
        "
        FORMAT,0,1,1,1 > refused,1
        FORMAT,1,1,1,1 > refused,1
        FORMAT,2,1,1,1 > refused,1
        FORMAT,8,1,1,1 > refused,1
        FORMAT,15,1,1,1 > refused,1
        FORMAT,17,1,1,1 > refused,1
        FORMAT,24,1,1,1 > refused,1
        FORMAT,48,1,1,1 > refused,1
        FORMAT,255,1,1,1 > refused,1
        FORMAT,17,0,0,0 > refused,1
        FORMAT,0,0,1,1 > refused,1
        RECENT,0 > refused,0
        FORMAT,16,1,1,1 > ok
        FORMAT,32,1,1,1 > ok
        FORMAT,64,1,1,1 > ok
        FORMAT,128,1,1,1 > ok
        FORMAT,256,1,1,1 > ok",
    );
}

#[test]
fn row_2_capacity_not_allowed() {
    agree_on(
        "
        FORMAT,16,0,1,1 > refused,2
        FORMAT,16,1,0,1 > refused,2
        FORMAT,16,1,1,0 > refused,2
        FORMAT,256,0,0,0 > refused,2
        RECENT,0 > refused,0
        FORMAT,16,1,1,1 > ok
        FORMAT,256,128,2048,256 > ok
        FORMAT,16,2048,2048,256 > ok",
    );
}

#[test]
fn row_4_update_of_no_page_or_too_many() {
    agree_on(
        "
        FORMAT,16,2,8,1 > ok
        BEGIN,0 > refused,4
        BEGIN,65 > refused,4
        BEGIN,4294967297 > refused,4
        BEGIN,64 > refused,6
        BEGIN,2 > ticket,1
        BEGIN,0 > refused,4
        BEGIN,65 > refused,4
        BEGIN,64 > refused,5",
    );
}

#[test]
fn row_5_no_record_unused() {
    agree_on(
        "
        FORMAT,16,8,8,2 > ok
        BEGIN,1 > ticket,1
        BEGIN,64 > refused,6
        BEGIN,1 > ticket,2
        BEGIN,1 > refused,5
        BEGIN,64 > refused,5
        PUT,3,0,<11> > refused,7
        FORMAT,16,1,8,1 > ok
        BEGIN,1 > ticket,1
        BEGIN,1 > refused,5",
    );
}

#[test]
fn row_6_too_few_page_numbers() {
    agree_on(
        "
        FORMAT,16,4,8,4 > ok
        BEGIN,5 > refused,6
        BEGIN,3 > ticket,1
        BEGIN,2 > refused,6
        BEGIN,1 > ticket,2
        BEGIN,1 > refused,6
        PUT,2,0,<21> > put
        APPEND,0,2 > version,1,1
        WEAVE,2 > node,1,0,1,3,0,0
        BEGIN,1 > refused,6",
    );
}

#[test]
fn row_7_no_such_ticket() {
    agree_on(
        "
        FORMAT,16,4,8,2 > ok
        PUT,1,0,<11> > refused,7
        WRITE,0,1,0 > refused,7
        APPEND,0,1 > refused,7
        WEAVE,1 > refused,7
        BEGIN,1 > ticket,1
        PUT,0,0,<11> > refused,7
        WRITE,0,0,0 > refused,7
        APPEND,0,0 > refused,7
        WEAVE,0 > refused,7
        PUT,2,9, > refused,7
        WRITE,0,2,9 > refused,7
        APPEND,0,2 > refused,7
        WEAVE,2 > refused,7
        PUT,4294967297,0,<11> > refused,7
        WRITE,0,4294967297,0 > refused,7
        APPEND,0,4294967297 > refused,7
        WEAVE,4294967297 > refused,7
        PUT,1,0,<11> > put
        APPEND,0,1 > version,1,1",
    );
}

#[test]
fn row_8_out_of_turn() {
    agree_on(
        "
        FORMAT,16,8,32,4 > ok
        BEGIN,2 > ticket,1
        WEAVE,1 > refused,8
        PUT,1,0,<11> > put
        PUT,1,1,<12> > put
        WEAVE,1 > refused,8
        APPEND,0,1 > version,1,3
        PUT,1,0,<11> > refused,8
        PUT,1,2,<11> > refused,8
        PUT,1,0, > refused,8
        APPEND,0,1 > refused,8
        WRITE,0,1,0 > refused,8
        WRITE,0,1,9 > refused,8
        WEAVE,1 > node,1,0,2,1,1,2
        APPEND,0,1 > refused,8
        WEAVE,1 > node,1,0,1,0,0,1
        PUT,1,0,<11> > refused,8
        WEAVE,1 > node,1,1,1,1,0,0
        WEAVE,1 > refused,8
        PUBLISH,0,0 > published,1
        WEAVE,1 > refused,8
        APPEND,0,1 > refused,8
        PUT,1,0,<11> > refused,8
        PUBLISH,0,0 > waiting
        RECENT,0 > recent,1
        READ,0,1,15,2 > bytes,1112",
    );
}

#[test]
fn row_9_no_such_page_of_the_update() {
    agree_on(
        "
        FORMAT,16,8,32,4 > ok
        BEGIN,2 > ticket,1
        BEGIN,1 > ticket,2
        PUT,1,2,<11> > refused,9
        PUT,2,1,<11> > refused,9
        PUT,1,4294967296,<11> > refused,9
        PUT,1,2, > refused,9
        PUT,1,1,<12> > put
        PUT,1,2,<11> > refused,9
        PUT,1,0,<11> > put
        PUT,1,2,<11> > refused,9",
    );
}

#[test]
fn row_10_page_already_put() {
    agree_on(
        "
        FORMAT,16,4,8,2 > ok
        BEGIN,2 > ticket,1
        PUT,1,1,<22> > put
        PUT,1,1,<22> > refused,10
        PUT,1,1,<33> > refused,10
        PUT,1,1, > refused,10
        PUT,1,0,<11> > put
        PUT,1,0,<33> > refused,10
        APPEND,0,1 > version,1,3
        WEAVE,1 > node,1,0,2,1,1,2
        WEAVE,1 > node,1,0,1,0,0,1
        WEAVE,1 > node,1,1,1,1,0,0
        PUBLISH,0,0 > published,1
        READ,0,1,15,2 > bytes,1122",
    );
}

#[test]
fn row_11_bytes_not_of_the_page_size() {
    agree_on(
        "
        FORMAT,16,4,8,2 > ok
        BEGIN,1 > ticket,1
        PUT,1,0, > refused,11
        PUT,1,0,11 > refused,11
        PUT,1,0,111111111111111111111111111111 > refused,11
        PUT,1,0,1111111111111111111111111111111111 > refused,11
        APPEND,0,1 > refused,12
        PUT,1,0,<11> > put
        FORMAT,32,4,8,2 > ok
        BEGIN,1 > ticket,1
        PUT,1,0,<11> > refused,11
        PUT,1,0,<1122> > put",
    );
}

#[test]
fn row_12_page_not_yet_put() {
    agree_on(
        "
        FORMAT,16,4,1,2 > ok
        BEGIN,2 > ticket,1
        APPEND,0,1 > refused,12
        WRITE,0,1,0 > refused,12
        WRITE,0,1,9 > refused,12
        PUT,1,1,<11> > put
        APPEND,0,1 > refused,12
        WRITE,0,1,9 > refused,12
        PUT,1,0,<11> > put
        WRITE,0,1,9 > refused,13
        APPEND,0,1 > refused,15",
    );
}

#[test]
fn row_13_write_past_the_last_assigned_size() {
    agree_on(
        "
        FORMAT,16,8,5,4 > ok
        BEGIN,4 > ticket,1
        BEGIN,1 > ticket,2
        PUT,1,0,<11> > put
        PUT,1,1,<11> > put
        PUT,1,2,<11> > put
        PUT,1,3,<11> > put
        PUT,2,0,<21> > put
        WRITE,0,1,1 > refused,13
        WRITE,0,1,4096 > refused,13
        WRITE,0,1,4294967296 > refused,13
        WRITE,0,2,1 > refused,13
        WRITE,0,2,0 > version,1,1
        WRITE,0,1,2 > refused,13
        WRITE,0,1,1 > refused,15
        APPEND,0,1 > refused,15",
    );
}

#[test]
fn row_15_too_few_node_places() {
    agree_on(
        "
        FORMAT,16,8,6,4 > ok
        BEGIN,4 > ticket,1
        PUT,1,0,<11> > put
        PUT,1,1,<11> > put
        PUT,1,2,<11> > put
        PUT,1,3,<11> > put
        APPEND,0,1 > refused,15
        WRITE,0,1,0 > refused,15
        BEGIN,1 > ticket,2
        PUT,2,0,<21> > put
        APPEND,0,2 > version,1,1
        BEGIN,2 > ticket,3
        PUT,3,0,<31> > put
        PUT,3,1,<32> > put
        APPEND,0,3 > version,2,5
        BEGIN,1 > ticket,4
        PUT,4,0,<41> > put
        WRITE,0,4,0 > refused,15
        APPEND,0,4 > refused,15
        WEAVE,1 > refused,8
        FORMAT,16,8,7,4 > ok
        BEGIN,4 > ticket,1
        PUT,1,0,<11> > put
        PUT,1,1,<11> > put
        PUT,1,2,<11> > put
        PUT,1,3,<11> > put
        APPEND,0,1 > version,1,7",
    );
}

#[test]
fn row_16_version_not_published() {
    agree_on(
        "
        FORMAT,16,4,8,2 > ok
        READ,0,0,0,0 > bytes,
        SIZE,0,0 > size,0
        STAMP,0,0,0 > refused,17
        READ,0,1,0,0 > refused,16
        SIZE,0,1 > refused,16
        STAMP,0,1,0 > refused,16
        BEGIN,1 > ticket,1
        PUT,1,0,<11> > put
        APPEND,0,1 > version,1,1
        SIZE,0,1 > refused,16
        WEAVE,1 > node,1,0,1,0,0,0
        READ,0,1,0,1 > refused,16
        READ,0,1,17,1 > refused,16
        SIZE,0,1 > refused,16
        STAMP,0,1,0 > refused,16
        STAMP,0,1,1 > refused,16
        RECENT,0 > recent,0
        PUBLISH,0,0 > published,1
        READ,0,1,0,1 > bytes,11
        SIZE,0,1 > size,16
        STAMP,0,1,0 > stamp,1
        RECENT,0 > recent,1
        READ,0,2,17,1 > refused,16
        SIZE,0,2 > refused,16
        STAMP,0,2,1 > refused,16
        SIZE,0,4294967297 > refused,16
        READ,0,4294967297,0,1 > refused,16
        STAMP,0,4294967297,0 > refused,16
        READ,0,0,0,0 > bytes,
        SIZE,0,0 > size,0",
    );
}

#[test]
fn row_17_not_inside_the_snapshot() {
    agree_on(
        "
        FORMAT,16,4,8,2 > ok
        BEGIN,1 > ticket,1
        BEGIN,1 > ticket,2
        PUT,1,0,<11> > put
        PUT,2,0,<22> > put
        APPEND,0,1 > version,1,1
        APPEND,0,2 > version,2,2
        WEAVE,1 > node,1,0,1,0,0,0
        WEAVE,2 > node,2,0,2,1,2,1
        WEAVE,2 > node,2,1,1,1,0,0
        PUBLISH,0,0 > published,1
        PUBLISH,0,0 > published,2
        READ,0,1,0,17 > refused,17
        READ,0,1,16,1 > refused,17
        READ,0,1,17,0 > refused,17
        READ,0,1,4294967296,0 > refused,17
        STAMP,0,1,1 > refused,17
        STAMP,0,1,4294967296 > refused,17
        READ,0,2,0,17 > bytes,1111111111111111111111111111111122
        READ,0,2,32,1 > refused,17
        STAMP,0,2,0 > stamp,1
        STAMP,0,2,1 > stamp,2
        STAMP,0,2,2 > refused,17
        STAMP,0,2,16 > refused,17
        READ,0,0,0,1 > refused,17
        STAMP,0,0,0 > refused,17",
    );
}

/// f is at most the size, so f+n is at most the pages of all tickets: 2,048, of 16 bytes each. Node places
/// run out before, since each page takes a leaf: appends of 64 pages end at 15 versions.
#[test]
fn row_14_is_out_of_reach() {
    let mut lines = vec!["FORMAT,16,2048,2048,256".to_string()];
    for ticket in 1..=32 {
        lines.extend(update(ticket, 64, &format!("APPEND,0,{ticket}")));
        lines.push(format!("WRITE,0,{ticket},4096"));
    }
    lines.push("BEGIN,1".to_string());
    let answers = same_as_model(lines);
    assert_eq!(count(&answers, "version,15,131"), 1);
    // after each of 15 versions the ticket has one; each of 17 appends finds no room
    assert_eq!(count(&answers, "refused,8"), 15);
    assert_eq!(count(&answers, "refused,15"), 17);
    assert_eq!(count(&answers, "refused,13"), 17);
    assert_eq!(count(&answers, "refused,14"), 0);
    assert_eq!(count(&answers, "refused,6"), 1);
}

/// The program's buffer is as long as its longest read: a read that row 18 would refuse is beyond its limits.
#[test]
fn row_18_is_out_of_reach() {
    let mut lines = vec!["FORMAT,16,17,64,1".to_string()];
    lines.extend(update(1, 17, "APPEND,0,1"));
    lines.extend(vec!["WEAVE,1".to_string(); 38]);
    let whole: String = (1..=16).map(|i| page(1, i)).collect();
    let last = [
        ("PUBLISH,0,0", "published,1".to_string()),
        ("READ,0,1,16,256", format!("bytes,{whole}")),
        ("READ,0,1,0,257", "refused,0".to_string()),
        ("READ,0,1,16,257", "refused,0".to_string()),
        ("READ,0,1,17,256", "refused,17".to_string()),
        ("READ,0,1,272,0", "bytes,".to_string()),
    ];
    lines.extend(last.iter().map(|(line, _)| line.to_string()));
    let answers = same_as_model(lines);
    let wanted = last.map(|(_, answer)| answer);
    assert!(answers.ends_with(&wanted), "{wanted:?}");
}
