//! Bytes written ahead of the entries. A sync of bytes that stand in the place of others takes half the time of one that has to
//! note a new length of the file too.

use super::input::{Input, PART};
use std::io;

/// So many bytes are written ahead; not beside a batch that is no small part of them itself.
const AHEAD: usize = 1 << 20;
const SMALL: usize = AHEAD / 16;

/// The byte that stands for nothing at a place of a journal with this salt. It goes by the salt, so that what a disk may put in the place
/// of entries does not pass for it.
fn nothing(salt: u64) -> [u8; 8] {
    (!salt).to_le_bytes()
}

/// What is written ahead behind a batch of so many bytes, which ends at this place.
pub fn ahead_of(end: u64, batch: usize, salt: u64) -> Vec<u8> {
    if batch > SMALL {
        return Vec::new();
    }
    let mut eight = nothing(salt);
    eight.rotate_left((end % 8) as usize);
    eight.repeat(AHEAD / eight.len())
}

/// How many of a journal's bytes from a place on are there before those that were written ahead. Fewer than eight of these may be an
/// entry's. What ends the journal is read first.
pub fn used(input: &Input, place: u64, salt: u64) -> io::Result<u64> {
    let (length, mut end) = (input.length, input.length);
    let left = length.saturating_sub(place);
    let mut part = vec![0; left.min(PART as u64) as usize];
    while end > place {
        let begin = end.saturating_sub(PART as u64).max(place);
        let room = (end - begin) as usize;
        let count = input.fill(&mut part[..room], begin)?;
        if let Some(used) = used_of(&part[..count], begin, salt) {
            end = begin + used as u64;
            break;
        }
        end = begin;
    }
    match length.saturating_sub(end) {
        0..=7 => Ok(left),
        _ => Ok(end - place),
    }
}

/// How many of these bytes, which stand at this place, are there up to the last that was not written ahead; none where all were.
fn used_of(bytes: &[u8], place: u64, salt: u64) -> Option<usize> {
    let nothing = nothing(salt);
    let first = (place % 8) as usize;
    let is_used = |(at, byte): &(usize, &u8)| **byte != nothing[(first + at) % 8];
    let last = bytes.iter().enumerate().rev().find(is_used)?;
    Some(last.0 + 1)
}

#[cfg(test)]
mod tests {
    use super::*;

    /// How many of these bytes are used, which end a journal and begin at a place of it.
    fn used_after(before: usize, bytes: &[u8], salt: u64) -> usize {
        let all = [&vec![0; before], bytes].concat();
        let length = all.len() as u64;
        let input = Input::of(Box::new(all), length).unwrap();
        used(&input, before as u64, salt).unwrap() as usize
    }

    /// What was written ahead is told from entries wherever these end, and from what a disk may leave in its place.
    #[test]
    fn only_what_was_written_ahead_is_not_used() {
        let salt = 0x0123_4567_89ab_cdef;
        for end in 0..20 {
            let entries = vec![7; end];
            let ahead = ahead_of(end as u64, 100, salt);
            assert_eq!(ahead.len(), AHEAD);
            let bytes = [&entries[..], &ahead[..100]].concat();
            for begin in 0..=end {
                assert_eq!(used_after(begin, &bytes[begin..], salt), end - begin);
            }
            assert_eq!(used_after(1, &bytes, salt), bytes.len());
            assert_eq!(used_after(0, &bytes, salt + 1), bytes.len());
        }
        assert_eq!(used_after(64, &[0; 64], salt), 64);
        assert!(ahead_of(64, SMALL + 1, salt).is_empty());
        assert_eq!(used_after(64, &[], salt), 0);
        assert_eq!(used_after(64, &nothing(salt)[..3], salt), 3);
    }

    /// However many parts it is read in.
    #[test]
    fn what_was_written_ahead_is_seen_over_all_parts() {
        let salt = 0x0123_4567_89ab_cdef;
        for end in [1, 100, PART - 1, PART, PART + 1, 3 * PART + 5] {
            let ahead = ahead_of(end as u64, 100, salt);
            let bytes = [&vec![7; end][..], &ahead].concat();
            assert_eq!(used_after(0, &bytes, salt), end);
            assert_eq!(used_after(1, &bytes[1..], salt), end - 1);
        }
    }
}
