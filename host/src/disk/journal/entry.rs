//! The entries of a journal as bytes.

use super::call::Call;
use crate::disk::checksum::Checksum;

/// The first bytes of every entry. The first of them stands in no text.
pub const MAGIC: [u8; 4] = [0xe7, b'P', b'I', b'T'];
/// The bytes before the payload: magic, the payload's length, the entry's number, the checksum.
pub const FRONT: usize = 4 + 4 + 8 + 8;
const CHECKSUM_AT: usize = 16;
/// The shortest payload, of the kind and three arguments, and the longest: as many, and a page of the greatest size.
const LEAST: usize = 8 * 4;
const MOST: usize = LEAST + 4_096;
/// The longest payload of an entry without a page or a text: the kind and five arguments.
const MOST_NUMBERS: usize = 8 * NUMBERS;
/// The length of the longest entry, and of one that notes something.
pub const MOST_ENTRY: usize = FRONT + MOST;
pub const NOTE: usize = FRONT + LEAST;

/// The kind of an entry and its arguments; those that it does not have are 0.
const NUMBERS: usize = 6;
pub type Numbers = [u64; NUMBERS];

/// What an entry holds.
#[derive(Clone, Copy, Debug, PartialEq, Eq)]
pub enum Content<'a> {
    /// A call, with a number of its own.
    Call(Call<'a>),
    /// No call: all entries up to this number were on the disk when this was written.
    Synced,
    /// No call: this is the number of the journal's last entry. All were on the disk when this was written, and so was the header of
    /// the journal that goes on after this one.
    Ended,
}

/// A whole entry.
pub struct Entry<'a> {
    pub number: u64,
    payload: &'a [u8],
}

/// Appends an entry. Its checksum is left open, for [`seal`].
pub fn encode(content: &Content<'_>, number: u64, to: &mut Vec<u8>) {
    let (numbers, bytes) = parts(content);
    encode_parts(&numbers, bytes, number, to);
}

/// The same of these numbers, the kind first, and bytes: three arguments, or five where one of the last two is not 0.
pub fn encode_parts(numbers: &Numbers, bytes: &[u8], number: u64, to: &mut Vec<u8>) {
    let count = match numbers {
        [.., 0, 0] => LEAST,
        _ => MOST_NUMBERS,
    };
    let length = count + bytes.len(); // of an accepted call, at most MOST
    to.reserve(FRONT + length);
    to.extend_from_slice(&MAGIC);
    to.extend_from_slice(&(length as u32).to_le_bytes());
    to.extend_from_slice(&number.to_le_bytes());
    to.extend_from_slice(&[0; 8]);
    for number in &numbers[..count / 8] {
        to.extend_from_slice(&number.to_le_bytes());
    }
    to.extend_from_slice(bytes);
}

/// Fills in the checksums of encoded entries, of a journal with this salt.
pub fn seal(entries: &mut [u8], salt: u64) {
    let mut rest = entries;
    while rest.len() >= FRONT {
        let end = FRONT + u32_at(rest, 4) as usize;
        let (entry, after) = rest.split_at_mut(end.min(rest.len()));
        let sum = checksum(entry, salt);
        entry[CHECKSUM_AT..FRONT].copy_from_slice(&sum.to_le_bytes());
        rest = after;
    }
}

impl<'a> Entry<'a> {
    /// The entry at the front of these bytes, if it is whole and of the journal with this salt.
    pub fn at_front(bytes: &'a [u8], salt: u64) -> Option<Entry<'a>> {
        let front = bytes.get(..FRONT)?;
        let length = length_in(front)?;
        let entry = bytes.get(..FRONT + length)?;
        if u64_at(entry, CHECKSUM_AT) != checksum(entry, salt) {
            return None;
        }
        Some(Entry {
            number: u64_at(entry, 8),
            payload: &entry[FRONT..],
        })
    }

    /// Its length in bytes.
    pub fn length(&self) -> usize {
        FRONT + self.payload.len()
    }

    /// What it holds; its kind, where that or its form is not known here.
    pub fn content(&self) -> Result<Content<'a>, u64> {
        let (numbers, bytes) = self.parts()?;
        match numbers {
            [NOTE_KIND, 0, 0, 0, 0, 0] => Ok(Content::Synced),
            [NOTE_KIND, 1, 0, 0, 0, 0] => Ok(Content::Ended),
            [kind, ..] => Call::of(&numbers, bytes).map(Content::Call).ok_or(kind),
        }
    }

    /// Its numbers, the kind first, and the bytes after them; the kind, where it has no such form.
    pub fn parts(&self) -> Result<(Numbers, &'a [u8]), u64> {
        let kind = u64_at(self.payload, 0);
        let (of_numbers, bytes) = match Call::has_bytes(kind) {
            true => self.payload.split_at(LEAST),
            false => (self.payload, &[][..]),
        };
        if of_numbers.len() > MOST_NUMBERS || of_numbers.len() % 8 != 0 {
            return Err(kind);
        }
        let mut numbers = [0; NUMBERS];
        for (number, at) in numbers.iter_mut().zip((0..of_numbers.len()).step_by(8)) {
            *number = u64_at(of_numbers, at);
        }
        Ok((numbers, bytes))
    }
}

/// The number and length of the entry that these bytes begin with, by what it says itself.
pub fn said_at_front(bytes: &[u8]) -> Option<(u64, usize)> {
    let front = bytes.get(..FRONT)?;
    Some((u64_at(front, 8), FRONT + length_in(front)?))
}

/// Whether these bytes end before an entry that begins with them would, as far as they say.
pub fn is_cut_off(bytes: &[u8]) -> bool {
    match bytes.get(..FRONT) {
        Some(front) => length_in(front).map_or(false, |length| bytes.len() < FRONT + length),
        None => true,
    }
}

/// The kind of an entry that is no call.
const NOTE_KIND: u64 = 0;

/// An entry's numbers, the kind first, and the bytes after them.
fn parts<'a>(content: &Content<'a>) -> (Numbers, &'a [u8]) {
    match content {
        Content::Call(call) => call.parts(),
        Content::Synced => ([NOTE_KIND, 0, 0, 0, 0, 0], &[]),
        Content::Ended => ([NOTE_KIND, 1, 0, 0, 0, 0], &[]),
    }
}

/// The payload's length that the front of an entry says, if it is such a front.
fn length_in(front: &[u8]) -> Option<usize> {
    let length = u32_at(front, 4) as usize;
    (front.starts_with(&MAGIC) && (LEAST..=MOST).contains(&length)).then_some(length)
}

/// The checksum of an entry: over the salt, the length, the number and the payload.
fn checksum(entry: &[u8], salt: u64) -> u64 {
    let mut sum = Checksum::new();
    sum.add(&salt.to_le_bytes());
    sum.add(&entry[4..CHECKSUM_AT]);
    sum.add(&entry[FRONT..]);
    sum.value()
}

fn u32_at(bytes: &[u8], at: usize) -> u32 {
    let mut four = [0; 4];
    four.copy_from_slice(&bytes[at..at + 4]);
    u32::from_le_bytes(four)
}

/// The number of 64 bits that stands there.
pub fn u64_at(bytes: &[u8], at: usize) -> u64 {
    let mut eight = [0; 8];
    eight.copy_from_slice(&bytes[at..at + 8]);
    u64::from_le_bytes(eight)
}
