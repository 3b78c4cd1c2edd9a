//! What stands at the front of a journal.

use super::entry::u64_at;
use super::error::{JournalError, JournalErrorKind};
use crate::disk::checksum::Checksum;
use std::collections::hash_map::RandomState;
use std::hash::{BuildHasher, Hasher};
use std::time::{SystemTime, UNIX_EPOCH};

/// The first eight bytes of every journal.
const MAGIC: [u8; 8] = *b"PITJRNAL";
/// The form that is written here, and the only one that is read.
const FORM: u64 = 1;
/// A header's length in bytes, and where its checksum stands, which is over all before it.
pub const HEADER: usize = 64;
const CHECKSUM_AT: usize = HEADER - 8;

/// No store lives to have so many entries, and no number of an entry wraps.
const MOST_FIRST: u64 = u64::MAX / 2;

/// The header of a journal.
#[derive(Clone, Copy, Debug, PartialEq, Eq)]
pub struct Header {
    /// Which generation's changes it has.
    pub generation: u64,
    /// The number of its first entry.
    pub first: u64,
    /// Part of each of its checksums, so that the bytes of another journal never pass for its entries.
    pub salt: u64,
    /// The salt of the journal that it goes on after; 0 where it goes on after its own saved store alone: a folder's first, and
    /// one whose store was rebuilt.
    pub before: u64,
}

impl Header {
    /// A header's length in bytes.
    pub const LENGTH: u64 = HEADER as u64;

    pub fn to_bytes(self) -> [u8; HEADER] {
        let numbers = [FORM, self.generation, self.first, self.salt, self.before, 0];
        let mut bytes = [0; HEADER];
        bytes[..8].copy_from_slice(&MAGIC);
        for (place, number) in bytes[8..].chunks_exact_mut(8).zip(numbers) {
            place.copy_from_slice(&number.to_le_bytes());
        }
        let sum = checksum(&bytes);
        bytes[CHECKSUM_AT..].copy_from_slice(&sum.to_le_bytes());
        bytes
    }

    /// An error in it.
    pub fn error(&self, kind: JournalErrorKind) -> JournalError {
        JournalError::new(self.generation, 0, 0, kind)
    }

    /// The header of the journal of this generation, of which these are all bytes. None where it was only being begun: nothing
    /// is written behind a header before that is on the disk whole.
    pub fn of(bytes: &[u8], generation: u64) -> Result<Option<Header>, JournalError> {
        let error = |kind| Err(JournalError::new(generation, 0, 0, kind));
        let front = match bytes.get(..HEADER) {
            Some(front) if is_whole(front) => front,
            _ if bytes.len() <= HEADER => return Ok(None),
            _ => return error(JournalErrorKind::Header),
        };
        let [form, found, first, salt, before] = [8, 16, 24, 32, 40].map(|at| u64_at(front, at));
        if form != FORM {
            return error(JournalErrorKind::Form(form));
        }
        if found != generation {
            return error(JournalErrorKind::Generation(found));
        }
        if !(1..=MOST_FIRST).contains(&first) {
            return error(JournalErrorKind::Header);
        }
        Ok(Some(Header {
            generation,
            first,
            salt,
            before,
        }))
    }
}

fn is_whole(front: &[u8]) -> bool {
    front.starts_with(&MAGIC) && u64_at(front, CHECKSUM_AT) == checksum(front)
}

fn checksum(front: &[u8]) -> u64 {
    let mut sum = Checksum::new();
    sum.add(&front[..CHECKSUM_AT]);
    sum.value()
}

/// A salt that no other journal has, but by chance.
pub fn new_salt() -> u64 {
    let now = SystemTime::now().duration_since(UNIX_EPOCH);
    let mut hasher = RandomState::new().build_hasher(); // with random keys
    hasher.write_u128(now.map_or(0, |since| since.as_nanos()));
    hasher.write_u32(std::process::id());
    hasher.finish()
}
