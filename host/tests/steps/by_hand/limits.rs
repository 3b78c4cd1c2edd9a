//! The program's own limits, and what FORMAT leaves.

use super::{agree_on, count, same_as_model, update};

#[test]
fn format_at_the_limits_and_beyond() {
    agree_on(
        "
        FORMAT,256,128,2048,256 > ok
        FORMAT,256,129,1,1 > refused,0
        FORMAT,16,2049,1,1 > refused,0
        FORMAT,16,1,2049,1 > refused,0
        FORMAT,16,1,1,257 > refused,0
        FORMAT,512,1,1,1 > refused,0
        FORMAT,257,1,1,1 > refused,0
        FORMAT,4096,1,1,1 > refused,0
        FORMAT,257,0,0,0 > refused,0
        FORMAT,16,0,2049,1 > refused,0
        FORMAT,16,0,1,257 > refused,0
        FORMAT,17,1,2049,1 > refused,0
        FORMAT,17,1927,1,1 > refused,1
        FORMAT,17,1928,1,1 > refused,0
        FORMAT,1,32768,1,1 > refused,1
        FORMAT,1,32769,1,1 > refused,0
        FORMAT,0,18446744073709551615,1,1 > refused,1
        FORMAT,1,18446744073709551615,1,1 > refused,0
        FORMAT,2,9223372036854775808,1,1 > refused,0
        FORMAT,16,1152921504606846976,1,1 > refused,0
        FORMAT,16,1152921504606846977,1,1 > refused,0
        FORMAT,256,72057594037927936,1,1 > refused,0
        FORMAT,256,72057594037927937,1,1 > refused,0
        FORMAT,17,1085102592571150096,1,1 > refused,0
        FORMAT,4294967312,1,1,1 > refused,0
        FORMAT,16,4294967297,1,1 > refused,0
        FORMAT,16,268435456,1,1 > refused,0
        FORMAT,16,1,4294967297,1 > refused,0
        FORMAT,16,1,1,4294967297 > refused,0
        RECENT,0 > recent,0
        BEGIN,64 > ticket,1
        BEGIN,64 > ticket,2
        BEGIN,1 > refused,6",
    );
}

#[test]
fn reads_at_the_limit_and_beyond() {
    agree_on(
        "
        READ,0,0,0,0 > refused,0
        FORMAT,16,1,1,1 > ok
        READ,0,0,0,256 > refused,17
        READ,0,0,0,257 > refused,0
        READ,0,1,0,256 > refused,16
        READ,0,1,0,257 > refused,0
        READ,0,99,99,257 > refused,0
        READ,0,0,0,4294967296 > refused,0
        READ,0,0,0,18446744073709551615 > refused,0
        READ,0,0,0,0 > bytes,",
    );
}

#[test]
fn steps_before_an_accepted_format() {
    agree_on(
        "
        BEGIN,1 > refused,0
        PUT,1,0,<11> > refused,0
        WRITE,0,1,0 > refused,0
        APPEND,0,1 > refused,0
        WEAVE,1 > refused,0
        PUBLISH,0,0 > refused,0
        READ,0,0,0,0 > refused,0
        SIZE,0,0 > refused,0
        RECENT,0 > refused,0
        STAMP,0,0,0 > refused,0
        FORMAT,17,4,8,2 > refused,1
        BEGIN,1 > refused,0
        FORMAT,16,4,0,2 > refused,2
        RECENT,0 > refused,0
        FORMAT,512,4,8,2 > refused,0
        PUBLISH,0,0 > refused,0
        FORMAT,16,4,8,2 > ok
        RECENT,0 > recent,0
        BEGIN,1 > ticket,1",
    );
}

#[test]
fn a_later_format_starts_anew_unless_refused() {
    agree_on(
        "
        FORMAT,16,4,8,2 > ok
        BEGIN,1 > ticket,1
        PUT,1,0,<11> > put
        FORMAT,17,4,8,2 > refused,1
        FORMAT,16,0,8,2 > refused,2
        FORMAT,16,4096,8,2 > refused,0
        FORMAT,16,4,8 > refused,0
        APPEND,0,1 > version,1,1
        FORMAT,0,4,8,2 > refused,1
        WEAVE,1 > node,1,0,1,0,0,0
        PUBLISH,0,0 > published,1
        FORMAT,16,4,8,0 > refused,2
        READ,0,1,0,2 > bytes,1111
        FORMAT,32,1,1,1 > ok
        RECENT,0 > recent,0
        SIZE,0,1 > refused,16
        WEAVE,1 > refused,7
        BEGIN,1 > ticket,1
        PUT,1,0,<11> > refused,11
        PUT,1,0,<1122> > put
        BEGIN,1 > refused,5
        FORMAT,16,4,8,2 > ok
        BEGIN,2 > ticket,1
        PUT,1,1,<33> > put
        PUT,1,0,<44> > put
        APPEND,0,1 > version,1,3
        WEAVE,1 > node,1,0,2,1,1,2
        WEAVE,1 > node,1,0,1,0,0,1
        WEAVE,1 > node,1,1,1,1,0,0
        PUBLISH,0,0 > published,1
        READ,0,1,14,4 > bytes,44443333",
    );
}

/// 256 updates, then all 2,048 node places: 16 times 127, 9 and 7.
#[test]
fn the_largest_areas_fill_exactly() {
    let mut lines = vec!["FORMAT,16,2048,2048,256".to_string()];
    lines.extend(vec!["BEGIN,1".to_string(); 257]);
    lines.push("FORMAT,16,2048,2048,256".to_string());
    for ticket in 1..=16 {
        lines.extend(update(ticket, 64, &format!("WRITE,0,{ticket},0")));
    }
    lines.extend(update(17, 2, "WRITE,0,17,1"));
    lines.extend(update(18, 1, "WRITE,0,18,63"));
    lines.extend(update(19, 1, "WRITE,0,19,63"));
    for (ticket, count) in (1..=16).map(|t| (t, 127)).chain([(17, 9), (18, 7)]) {
        lines.extend(vec![format!("WEAVE,{ticket}"); count]);
    }
    lines.extend(vec!["PUBLISH,0,0".to_string(); 19]);
    let offsets = (0..1_024).step_by(256);
    lines.extend(offsets.map(|offset| format!("READ,0,18,{offset},256")));
    lines.extend((0..64).map(|page| format!("STAMP,0,18,{page}")));
    let answers = same_as_model(lines);
    for wanted in ["refused,5", "version,17,9", "version,18,7", "refused,15"] {
        assert_eq!(count(&answers, wanted), 1, "{wanted}");
    }
    assert_eq!(count(&answers, "published,18"), 1);
    let stamps = ["stamp,16", "stamp,17", "stamp,18"].map(|stamp| count(&answers, stamp));
    assert_eq!(stamps, [61, 2, 1]);
}
