//! A file that is written or read once, front to back, with the checksum of what has passed.

use super::{at, FileError};
use crate::disk::checksum::Checksum;
use std::io::{self, Read, Write};
use std::path::Path;

/// The file, and the checksum so far.
pub struct Summed<'a, F> {
    file: F,
    /// What its errors name.
    path: &'a Path,
    pub sum: Checksum,
}

impl<'a, F> Summed<'a, F> {
    pub fn new(file: F, path: &'a Path) -> Summed<'a, F> {
        let sum = Checksum::new();
        Summed { file, path, sum }
    }

    fn done<T>(&self, done: io::Result<T>) -> Result<T, FileError> {
        done.map_err(at(self.path))
    }
}

impl<W: Write> Summed<'_, W> {
    pub fn write(&mut self, bytes: &[u8]) -> Result<(), FileError> {
        self.sum.add(bytes);
        self.write_beside(bytes)
    }

    /// Bytes that the checksum does not cover.
    pub fn write_beside(&mut self, bytes: &[u8]) -> Result<(), FileError> {
        let written = self.file.write_all(bytes);
        self.done(written)
    }

    pub fn flush(&mut self) -> Result<(), FileError> {
        let flushed = self.file.flush();
        self.done(flushed)
    }
}

impl<R: Read> Summed<'_, R> {
    /// Fills the bytes, all of them.
    pub fn read(&mut self, bytes: &mut [u8]) -> Result<(), FileError> {
        let read = self.file.read_exact(bytes);
        self.done(read)?;
        self.sum.add(bytes);
        Ok(())
    }

    /// Reads up to so many bytes behind those that are there, and leaves it to the caller which of them the checksum covers.
    pub fn read_beside(&mut self, most: usize, bytes: &mut Vec<u8>) -> Result<(), FileError> {
        let read = self.file.by_ref().take(most as u64).read_to_end(bytes);
        self.done(read).map(drop)
    }
}
