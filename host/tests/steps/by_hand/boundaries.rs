//! Document 01's boundary list; sizes of 4,096 and 4,097 pages are for the C functions.

use super::{agree_on, count, same_as_model, update};

#[test]
fn a_write_at_the_size_and_one_past_it() {
    agree_on(
        "
        FORMAT,16,8,32,4 > ok
        BEGIN,2 > ticket,1
        BEGIN,1 > ticket,2
        PUT,1,0,<11> > put
        PUT,1,1,<12> > put
        PUT,2,0,<21> > put
        WRITE,0,1,1 > refused,13
        WRITE,0,1,0 > version,1,3
        WRITE,0,2,3 > refused,13
        WRITE,0,2,2 > version,2,3
        WEAVE,2 > node,2,0,4,1,2,2
        WEAVE,2 > node,2,2,2,2,0,1
        WEAVE,2 > node,2,2,1,2,0,0
        PUBLISH,0,0 > waiting",
    );
}

#[test]
fn updates_of_0_1_64_and_65_pages() {
    agree_on(
        "
        FORMAT,16,129,1,4 > ok
        BEGIN,0 > refused,4
        BEGIN,1 > ticket,1
        BEGIN,64 > ticket,2
        BEGIN,65 > refused,4
        BEGIN,64 > ticket,3
        PUT,2,63,<11> > put
        PUT,2,64,<11> > refused,9
        BEGIN,1 > refused,6",
    );
}

#[test]
fn an_update_of_64_pages_whole() {
    let mut lines = vec!["FORMAT,16,64,127,1".to_string()];
    lines.extend(update(1, 64, "APPEND,0,1"));
    lines.extend(vec!["WEAVE,1".to_string(); 128]);
    lines.push("PUBLISH,0,0".to_string());
    lines.push("SIZE,0,1".to_string());
    let offsets = (0..=1_024).step_by(128);
    lines.extend(offsets.map(|offset| format!("READ,0,1,{offset},128")));
    lines.extend((0..=64).map(|page| format!("STAMP,0,1,{page}")));
    let answers = same_as_model(lines);
    assert_eq!(count(&answers, "version,1,127"), 1);
    assert_eq!(count(&answers, "size,1024"), 1);
    assert_eq!(count(&answers, "stamp,1"), 64);
    assert_eq!(count(&answers, "refused,8"), 1);
    assert_eq!(count(&answers, "refused,17"), 2);
}

#[test]
fn a_read_ending_at_the_size_and_one_byte_past() {
    agree_on(
        "
        FORMAT,16,4,8,2 > ok
        READ,0,0,0,0 > bytes,
        READ,0,0,0,1 > refused,17
        READ,0,0,1,0 > refused,17
        SIZE,0,0 > size,0
        BEGIN,2 > ticket,1
        PUT,1,1,<12> > put
        PUT,1,0,<11> > put
        APPEND,0,1 > version,1,3
        WEAVE,1 > node,1,0,2,1,1,2
        WEAVE,1 > node,1,0,1,0,0,1
        WEAVE,1 > node,1,1,1,1,0,0
        PUBLISH,0,0 > published,1
        SIZE,0,1 > size,32
        READ,0,1,30,2 > bytes,1212
        READ,0,1,30,3 > refused,17
        READ,0,1,31,1 > bytes,12
        READ,0,1,31,2 > refused,17
        READ,0,1,32,0 > bytes,
        READ,0,1,32,1 > refused,17
        READ,0,1,33,0 > refused,17
        READ,0,1,0,32 > bytes,1111111111111111111111111111111112121212121212121212121212121212
        READ,0,1,0,33 > refused,17
        READ,0,1,0,0 > bytes,
        READ,0,1,15,2 > bytes,1112
        READ,0,0,0,0 > bytes,
        READ,0,0,0,1 > refused,17",
    );
}
