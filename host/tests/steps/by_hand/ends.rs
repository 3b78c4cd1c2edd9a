//! The input's ends.

use super::exact;

#[test]
fn the_last_line_may_lack_its_line_feed() {
    let start = "FORMAT,16,4,8,2\n";
    let with = |last: &[u8]| [start.as_bytes(), last].concat();
    exact(&with(b"RECENT,0"), "ok\nrecent,0\n");
    exact(&with(b"RECENT,0\n"), "ok\nrecent,0\n");
    exact(&with(b"RECEN,0"), "ok\nrefused,0\n");
    exact(&with(b"RECENT,0\r"), "ok\nrefused,0\n");
    exact(&with(b"BEGIN,1\nBEGIN,1"), "ok\nticket,1\nticket,2\n");
    exact(&with(&b"A".repeat(600)), "ok\nrefused,0\n");
    exact(&with(&b"A".repeat(601)), "ok\nrefused,0\n");
    exact(&with(&b"A".repeat(100_000)), "ok\nrefused,0\n");
    exact(&with(b"\0"), "ok\nrefused,0\n");
    exact(start.trim_end().as_bytes(), "ok\n");
}

#[test]
fn empty_input_and_empty_lines() {
    exact(b"", "");
    exact(b"\n", "refused,0\n");
    exact(b"\n\n\n", "refused,0\nrefused,0\nrefused,0\n");
    exact(b"FORMAT,16,4,8,2\n", "ok\n");
    exact(b"FORMAT,16,4,8,2\n\n", "ok\nrefused,0\n");
    exact(
        b"\nFORMAT,16,4,8,2\n\nRECENT,0",
        "refused,0\nok\nrefused,0\nrecent,0\n",
    );
    exact(b"FORMAT,16,4,8,2\r\nRECENT,0\r\n", "refused,0\nrefused,0\n");
}
