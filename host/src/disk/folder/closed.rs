//! What a folder's last journal held when it was closed in order.
//!
//! | Bytes | What |
//! |---|---|
//! | 0 to 7 | the letters `PITCLOSE` |
//! | 8 to 55 | numbers of 64 bits, lowest byte first: form, 1; the journal's generation; its salt; its length in bytes; the number of its last entry; checksum, CRC-64/XZ, over all bytes before it |
//!
//! A journal only grows, so what was noted of one stays true, and opening never has to remove the file. It says nothing of a
//! journal of another generation, or with another salt.

use crate::disk::checksum::Checksum;
use crate::disk::file::new::NewFile;
use crate::disk::file::{plain, FileError};
use crate::disk::journal::{Header, JournalError, JournalErrorKind, Replayed};
use std::io::{self, Read, Write};
use std::path::{Path, PathBuf};

const NAME: &str = "closed";
const MAGIC: [u8; 8] = *b"PITCLOSE";
const FORM: u64 = 1;
const LENGTH: usize = 56;
const CHECKSUM_AT: usize = LENGTH - 8;

/// What a journal held when it was closed in order.
#[derive(Clone, Copy, Debug, PartialEq, Eq)]
pub struct Closed {
    pub generation: u64,
    pub salt: u64,
    /// In bytes.
    pub length: u64,
    /// The number of the last entry.
    pub last: u64,
}

impl Closed {
    fn to_bytes(self) -> [u8; LENGTH] {
        let numbers = [FORM, self.generation, self.salt, self.length, self.last];
        let mut bytes = [0; LENGTH];
        bytes[..8].copy_from_slice(&MAGIC);
        for (place, number) in bytes[8..].chunks_exact_mut(8).zip(numbers) {
            place.copy_from_slice(&number.to_le_bytes());
        }
        let sum = checksum(&bytes);
        bytes[CHECKSUM_AT..].copy_from_slice(&sum.to_le_bytes());
        bytes
    }

    fn of(bytes: &[u8]) -> Option<Closed> {
        if bytes.len() != LENGTH || !bytes.starts_with(&MAGIC) {
            return None;
        }
        let number = |k: usize| {
            let mut eight = [0; 8];
            eight.copy_from_slice(&bytes[8 * k..][..8]);
            u64::from_le_bytes(eight)
        };
        let is_whole = number(1) == FORM && number(6) == checksum(bytes);
        is_whole.then(|| Closed {
            generation: number(2),
            salt: number(3),
            length: number(4),
            last: number(5),
        })
    }

    /// The file in which it is noted.
    pub fn path_in(folder: &Path) -> PathBuf {
        folder.join(NAME)
    }

    /// What is noted in a folder. None where there is no such file, or it cannot be read or is damaged: it is a second witness of
    /// what the journals say themselves, and a folder whose journals are whole is not refused for want of it.
    pub fn read(folder: &Path) -> Option<Closed> {
        let file = plain::to_read(&Closed::path_in(folder)).ok()?;
        let mut bytes = Vec::new();
        file.take(LENGTH as u64 + 1).read_to_end(&mut bytes).ok()?;
        Closed::of(&bytes)
    }

    /// Notes it in a folder, unless that is noted already, in a file with this mode. The old note stands until the new one is whole
    /// and on the disk.
    pub fn write(self, folder: &Path, mode: u32) -> io::Result<()> {
        if Closed::read(folder) == Some(self) {
            return Ok(());
        }
        let mut new = NewFile::in_folder(&Closed::path_in(folder), mode)?;
        new.file.write_all(&self.to_bytes())?;
        new.replace()
    }

    /// Whether it is about the journal with this header.
    pub fn is_of(&self, header: &Header) -> bool {
        (self.generation, self.salt) == (header.generation, header.salt)
    }

    /// Refuses a journal that this is about, where it holds fewer entries than it did. It may end sooner by a note, which is no entry.
    pub fn check(&self, found: &Replayed) -> Result<(), FileError> {
        if !self.is_of(&found.header) || found.last >= self.last {
            return Ok(());
        }
        let kind = JournalErrorKind::ShorterThanClosed { last: self.last };
        let generation = found.header.generation;
        Err(JournalError::new(generation, found.length, found.last + 1, kind).into())
    }
}

fn checksum(bytes: &[u8]) -> u64 {
    let mut sum = Checksum::new();
    sum.add(&bytes[..CHECKSUM_AT]);
    sum.value()
}
