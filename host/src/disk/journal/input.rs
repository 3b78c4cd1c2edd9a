//! A journal's file as it is read: a part at a time, however long it is.

use super::entry::MOST_ENTRY;
use super::error::JournalError;
use super::header::{Header, HEADER};
use crate::disk::file::{at, FileError};
use std::fs::File;
use std::io::{self, ErrorKind};
use std::os::unix::fs::FileExt;
use std::path::{Path, PathBuf};

/// So many bytes are read at once.
pub const PART: usize = 1 << 18;

/// Bytes that can be read from any place on.
pub trait ReadAt {
    /// Reads bytes from a place on, as many as come at once; none at the end.
    fn read_at(&self, to: &mut [u8], place: u64) -> io::Result<usize>;
}

impl ReadAt for File {
    fn read_at(&self, to: &mut [u8], place: u64) -> io::Result<usize> {
        FileExt::read_at(self, to, place)
    }
}

#[cfg(test)]
impl ReadAt for Vec<u8> {
    fn read_at(&self, to: &mut [u8], place: u64) -> io::Result<usize> {
        let rest = self.get(place as usize..).unwrap_or_default();
        let count = rest.len().min(to.len());
        to[..count].copy_from_slice(&rest[..count]);
        Ok(count)
    }
}

/// A journal that is read, no further than it was long when this was made.
pub struct Input {
    /// Where it is, for errors.
    path: PathBuf,
    bytes: Box<dyn ReadAt>,
    /// Its length in bytes.
    pub length: u64,
    /// The header, as far as it is there, and one byte more where something follows.
    front: Vec<u8>,
}

impl Input {
    /// Of this file at a path, as long as it is now.
    pub fn new(file: File, path: &Path) -> io::Result<Input> {
        let length = file.metadata()?.len();
        let mut input = Input::of(Box::new(file), length)?;
        input.path = path.to_path_buf();
        Ok(input)
    }

    /// An error of reading it.
    pub fn error(&self, error: io::Error) -> FileError {
        at(&self.path)(error)
    }

    pub(super) fn of(bytes: Box<dyn ReadAt>, length: u64) -> io::Result<Input> {
        let mut input = Input {
            path: PathBuf::new(),
            bytes,
            length,
            front: Vec::new(),
        };
        let mut front = vec![0; HEADER + 1];
        let count = input.fill(&mut front, 0)?;
        front.truncate(count);
        input.front = front;
        Ok(input)
    }

    /// The header of the journal, which is of this generation. None where it was only being begun.
    pub fn header(&self, generation: u64) -> Result<Option<Header>, JournalError> {
        Header::of(&self.front, generation)
    }

    /// Reads bytes from a place on, up to the end of the journal or of this room. Gives how many.
    pub fn fill(&self, to: &mut [u8], place: u64) -> io::Result<usize> {
        let left = self.length.saturating_sub(place);
        let most = to.len().min(usize::try_from(left).unwrap_or(usize::MAX));
        let mut count = 0;
        while count < most {
            match self
                .bytes
                .read_at(&mut to[count..most], place + count as u64)
            {
                Ok(0) => break, // another process has made it shorter
                Ok(more) => count += more,
                Err(e) if e.kind() == ErrorKind::Interrupted => (),
                Err(e) => return Err(e),
            }
        }
        Ok(count)
    }

    /// Reads from a place on.
    pub fn from(&self, place: u64) -> Reader<'_> {
        Reader {
            input: self,
            place,
            buffer: Vec::new(),
            begin: 0,
            has_end: false,
        }
    }
}

/// Reads a journal from one place to the next.
pub struct Reader<'a> {
    input: &'a Input,
    /// Where the next byte stands in the file, and in the buffer.
    place: u64,
    buffer: Vec<u8>,
    begin: usize,
    /// Whether the buffer has all up to the journal's end.
    has_end: bool,
}

impl Reader<'_> {
    /// The next bytes: at least as many as the longest entry has, unless the journal ends.
    pub fn rest(&mut self) -> io::Result<&[u8]> {
        if self.buffer.len() - self.begin < MOST_ENTRY && !self.has_end {
            self.refill()?;
        }
        Ok(&self.buffer[self.begin..])
    }

    fn refill(&mut self) -> io::Result<()> {
        self.buffer.drain(..self.begin);
        self.begin = 0;
        let had = self.buffer.len();
        let at = self.place + had as u64;
        let left = self.input.length.saturating_sub(at);
        let more = left.min((PART - had) as u64) as usize;
        self.buffer.resize(had + more, 0);
        let filled = self.input.fill(&mut self.buffer[had..], at);
        let count = filled.as_ref().map_or(0, |count| *count);
        self.buffer.truncate(had + count);
        self.has_end = count < more || more as u64 == left;
        filled.map(drop)
    }

    /// Goes on after so many of them.
    pub fn advance(&mut self, count: usize) {
        self.begin += count;
        self.place += count as u64;
    }
}
