//! The windows of random scripts: good lists, lists with one fault, and the minutes of PUBLISH.

use super::Author;
use crate::model::windows::{inside, Window, WEEK};
use crate::support::random::Random;

/// Lines that are no window, each for one reason.
pub const FAULTS: [&[u8]; 48] = [
    // not two fields
    b"",
    b",",
    b"5",
    b"5,",
    b",6",
    b"5,6,",
    b",5,6",
    b"5,,6",
    b"5,6,7",
    b"5;6",
    b"5 6",
    // equal ends
    b"0,0",
    b"5,5",
    b"10079,10079",
    // out of range, some of them in range in the low bits
    b"5,10080",
    b"10080,5",
    b"10080,10081",
    b"5,65535",
    b"65536,5",
    b"5,65542",
    b"65541,65542",
    b"4294967301,6",
    b"5,4294967302",
    b"5,18446744073709551615",
    b"18446744073709551616,5",
    b"5,18446744073709551622",
    b"5,99999999999999999999999999999999",
    // not written as numbers are
    b"05,6",
    b"5,06",
    b"00,6",
    b"+5,6",
    b"5,+6",
    b"-5,6",
    b"5,-6",
    b" 5,6",
    b"5 ,6",
    b"5, 6",
    b"5,6 ",
    b"\t5,6",
    b"5,6\r",
    b"5,6\0",
    b"5.0,6",
    b"0x5,6",
    b"5,a",
    b"from,to",
    b"5,\xff",
    b"\xef\xbb\xbf5,6",
    b"5,\xd9\xa6",
];

/// The text of a list: each line with its line feed.
pub fn text_of<L: AsRef<[u8]>>(lines: &[L]) -> Vec<u8> {
    let ended = |line: &L| [line.as_ref(), b"\n"].concat();
    lines.iter().flat_map(ended).collect()
}

/// The line of a window, mostly a short one; anywhere in the week, or over its end.
pub fn window(random: &mut Random) -> Vec<u8> {
    let from = match random.below(8) {
        0 => WEEK - 1 - random.below(3),
        1 => random.below(3),
        _ => random.below(WEEK),
    };
    let most = random.pick(&[1, 1, 30, 120, 120, 600, WEEK - 1]);
    let to = (from + random.between(1, most)) % WEEK;
    format!("{from},{to}").into_bytes()
}

/// The lines of a list, all of them windows.
pub fn windows(random: &mut Random) -> Vec<Vec<u8>> {
    let count = match random.below(16) {
        0..=1 => 0,
        2..=11 => random.between(1, 4),
        12 => 32,
        13 => 33,
        _ => random.between(0, 36),
    };
    (0..count).map(|_| window(random)).collect()
}

/// A list's text with one fault, at any of its lines.
fn faulty(random: &mut Random) -> Vec<u8> {
    let mut lines = windows(random);
    let at = random.below(lines.len() as u64 + 1) as usize;
    let fault = random.pick(&FAULTS).to_vec();
    match random.below(4) {
        0 => lines.insert(at, fault),
        1 => {
            let mut text = text_of(&[lines, vec![window(random)]].concat());
            text.pop(); // the last line feed
            return text;
        }
        _ if at < lines.len() => lines[at] = fault,
        _ => lines.push(fault),
    }
    text_of(&lines)
}

/// A good list's text with a byte changed, put in or taken out: it may still be one.
fn bent(random: &mut Random) -> Vec<u8> {
    let lines = [windows(random), vec![window(random)]].concat();
    let mut text = text_of(&lines);
    let at = random.below(text.len() as u64) as usize;
    let byte = random.pick(b"0123456789,,\n\n\r -+a\0\xff");
    match random.below(3) {
        0 => text[at] = byte,
        1 => text.insert(at, byte),
        _ => drop(text.remove(at)),
    }
    text
}

impl Author {
    pub(super) fn list_of_windows(&mut self) {
        let text = match self.random.below(8) {
            0..=1 => faulty(&mut self.random),
            2 => bent(&mut self.random),
            _ => text_of(&windows(&mut self.random)),
        };
        self.say([&b"SETWINDOWS,"[..], &text].concat());
    }

    /// A minute for PUBLISH: any of the week, at its ends or past it, or at an end of a window that stands.
    pub(super) fn minute(&mut self) -> u64 {
        let minute = match self.random.below(8) {
            0 => self.random.pick(&[0, 1, WEEK - 2, WEEK - 1]),
            1 => self.random.pick(&[WEEK - 1, WEEK, WEEK + 1, u64::MAX]),
            2..=4 => self.edge(),
            _ => self.random.below(WEEK),
        };
        self.bent(minute)
    }

    /// The first or the last minute of a window, or the one before or after it; any where there is none.
    fn edge(&mut self) -> u64 {
        let windows = &self.model.store.as_ref().expect("FORMAT").windows;
        if windows.is_empty() {
            return self.random.below(WEEK);
        }
        let Window { from, to } = self.random.pick(windows);
        let before = |minute| (minute + WEEK - 1) % WEEK;
        self.random.pick(&[before(from), from, before(to), to])
    }

    /// A minute outside every window; where there is none, no window stands after this.
    pub(super) fn free_minute(&mut self) -> u64 {
        let windows = &self.store().windows;
        match (0..WEEK).rev().find(|minute| !inside(windows, *minute)) {
            Some(minute) => minute,
            None => {
                self.say("SETWINDOWS,");
                0
            }
        }
    }
}
