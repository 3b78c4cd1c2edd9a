//! The file that a journal is written to.

use super::ahead::ahead_of;
use super::batch::{Batch, Ended};
use super::entry::{encode, seal, Content};
use super::header::Header;
use super::replay::Replayed;
use std::fs::File;
use std::io;
use std::mem;
use std::os::unix::fs::FileExt;
use std::sync::Arc;
use std::thread;
use std::time::Duration;

/// Room for entries is kept from one batch to the next, up to so many bytes.
const KEPT_ROOM: usize = 1 << 20;

/// A write for which the disk has no room is made again after so many milliseconds each: a store that is being saved may have taken
/// the last of it, and gives it back when its own save fails.
const AGAIN_AFTER: [u64; 4] = [1, 10, 100, 500];
/// The system's number for that. `ErrorKind` has a name for it only since Rust 1.83.
const NO_ROOM: i32 = 28;
/// And those of a quota, and of the length that a file may have.
const NO_MORE: [i32; 2] = [122, 27];

/// Whether a write failed since there is no room: on the disk, or for this user or this process.
pub fn is_no_room(error: &io::Error) -> bool {
    let is_no_room = |number: i32| number == NO_ROOM || NO_MORE.contains(&number);
    error.raw_os_error().map_or(false, is_no_room)
}

fn write_at(file: &File, bytes: &[u8], at: u64) -> io::Result<()> {
    for pause in AGAIN_AFTER {
        match file.write_all_at(bytes, at) {
            Err(e) if e.raw_os_error() == Some(NO_ROOM) => (),
            done => return done,
        }
        thread::sleep(Duration::from_millis(pause));
    }
    file.write_all_at(bytes, at)
}

/// An entry by itself.
fn sealed(content: &Content<'_>, number: u64, salt: u64) -> Vec<u8> {
    let mut entry = Vec::new();
    encode(content, number, &mut entry);
    seal(&mut entry, salt);
    entry
}

/// Notes at the end of a journal with this salt, whose last entry has this number, that it has ended: from here on the next one, whose
/// header is on the disk, is not to be missed. Without that its loss would go unseen.
pub fn note_ended(file: &File, end: u64, last: u64, salt: u64) -> io::Result<()> {
    write_at(file, &sealed(&Content::Ended, last, salt), end)?;
    file.sync_data()
}

/// A journal's file, and how far it is written.
pub struct Output {
    pub file: Arc<File>,
    pub header: Header,
    pub length: u64,
    /// The file's own length: from the entries' end up to here it is written ahead. None, as it were, where it cannot be.
    pub end: u64,
    /// Room of a batch that is written.
    pub room: Vec<u8>,
}

impl Output {
    /// A journal that begins in an empty file. Its header is on the disk before anything is written behind it.
    pub fn begin(file: File, header: Header) -> io::Result<Output> {
        let mut output = Output {
            file: Arc::new(file),
            header,
            length: 0,
            end: 0,
            room: Vec::new(),
        };
        output.begin_file()?;
        Ok(output)
    }

    /// A journal that goes on in its file, after what was found there. All of that is on the disk first: a process that died
    /// may not have got so far.
    pub fn resume(file: File, found: &Replayed) -> io::Result<Output> {
        let mut output = Output {
            end: file.metadata()?.len(),
            file: Arc::new(file),
            header: found.header,
            length: found.length,
            room: Vec::new(),
        };
        output.file.sync_all()?;
        if found.noted < found.last {
            output.note_synced_if_room(found.last)?;
        }
        Ok(output)
    }

    /// Writes a batch. A journal that ends in it is on the disk before the next one has anything: no power cut leaves
    /// later entries without earlier ones.
    pub fn write_batch(&mut self, mut batch: Batch) -> io::Result<()> {
        for ended in mem::take(&mut batch.ended) {
            self.go_on_in(ended)?;
        }
        self.write(&mut batch.entries)?;
        if self.end == self.length && !batch.entries.is_empty() {
            self.write_ahead(batch.entries.len());
        }
        batch.entries.clear();
        if batch.entries.capacity() <= KEPT_ROOM {
            self.room = batch.entries;
        }
        Ok(())
    }

    /// Notes in the journal that all entries up to this number are on the disk. An earlier journal's need no note: they were
    /// there before this one began.
    pub fn note_synced(&mut self, number: u64) -> io::Result<()> {
        if number < self.header.first {
            return Ok(());
        }
        let mut entry = Vec::new();
        encode(&Content::Synced, number, &mut entry);
        self.write(&mut entry)
    }

    /// The same, unless the disk has no room for it: the store is the same without.
    fn note_synced_if_room(&mut self, number: u64) -> io::Result<()> {
        if number < self.header.first {
            return Ok(());
        }
        let note = sealed(&Content::Synced, number, self.header.salt);
        match self.file.write_all_at(&note, self.length) {
            Err(error) if is_no_room(&error) => {
                let _ = self.file.set_len(self.length); // what is left is cut off at the next opening
                self.end = self.length;
                return Ok(());
            }
            written => written?,
        }
        self.length += note.len() as u64;
        self.end = self.end.max(self.length);
        Ok(())
    }

    fn go_on_in(&mut self, mut ended: Ended) -> io::Result<()> {
        self.write(&mut ended.entries)?;
        self.trim()?;
        self.file.sync_data()?;
        let (file, salt, end) = (Arc::clone(&self.file), self.header.salt, self.length);
        self.file = Arc::new(ended.next);
        self.header = ended.header;
        self.length = 0;
        self.begin_file()?;
        match self.header.before {
            0 => Ok(()), // a store that was rebuilt: the journal counts only with its saved store
            _ => note_ended(&file, end, self.header.first - 1, salt),
        }
    }

    fn begin_file(&mut self) -> io::Result<()> {
        write_at(&self.file, &self.header.to_bytes(), 0)?;
        self.file.sync_all()?;
        self.length = Header::LENGTH;
        self.end = Header::LENGTH;
        Ok(())
    }

    /// Says that the journal, which has nothing but its header yet, goes on after the one with this salt, which is in this file.
    pub fn go_on_after(&mut self, before: u64, file: &File) -> io::Result<()> {
        let end = file.metadata()?.len();
        self.header.before = before;
        self.begin_file()?;
        note_ended(file, end, self.header.first - 1, before)
    }

    /// After a write that failed: takes away what it may have left. No call has returned by any of it.
    pub fn cut_unkept(&mut self) -> io::Result<()> {
        self.file.set_len(self.length)
    }

    /// Takes away what was written ahead.
    pub fn trim(&mut self) -> io::Result<()> {
        if self.end > self.length {
            self.file.set_len(self.length)?;
            self.end = self.length;
        }
        Ok(())
    }

    fn write(&mut self, entries: &mut [u8]) -> io::Result<()> {
        seal(entries, self.header.salt);
        write_at(&self.file, entries, self.length)?;
        self.length += entries.len() as u64;
        self.end = self.end.max(self.length);
        Ok(())
    }

    /// Writes ahead of the entries. A disk may have room for entries where it has none for that: then nothing is written ahead in
    /// this file any more.
    fn write_ahead(&mut self, batch: usize) {
        let ahead = ahead_of(self.length, batch, self.header.salt);
        match self.file.write_all_at(&ahead, self.length) {
            Ok(()) => self.end += ahead.len() as u64,
            Err(_) => {
                let _ = self.file.set_len(self.length); // what is left does no harm
                self.end = u64::MAX;
            }
        }
    }
}
