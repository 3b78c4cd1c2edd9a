//! Opening a folder: the saved store, and the journals after it.

use super::files;
use super::kept;
use super::lock::FolderLock;
use super::look::{self, Look};
use super::{Folder, Generations, Options, Place};
use crate::calls::store::Store;
use crate::disk::file::{at, at_folder, new, plain, FileError};
use crate::disk::journal::{self, is_no_room, Cut, Input, Journal, Replayed, PART};
use crate::shared::numbering::Numbering;
use std::fmt;
use std::fs::File;
use std::io;
use std::os::unix::fs::FileExt;
use std::path::Path;

/// What a folder was opened from.
#[derive(Clone, Debug, PartialEq, Eq)]
#[non_exhaustive]
pub struct Opened {
    /// The generation of the saved store.
    pub generation: u64,
    /// How many journals were read after it.
    pub journals: u64,
    /// How many of their entries, each a call, were made again.
    pub entries: u64,
    /// What was cut off the end of the last journal, where something was.
    pub cut: Option<Cut>,
}

impl fmt::Display for Opened {
    fn fmt(&self, f: &mut fmt::Formatter<'_>) -> fmt::Result {
        let Opened {
            generation,
            entries,
            ..
        } = self;
        write!(f, "store-{generation} and {entries} entries after it")?;
        match &self.cut {
            None => Ok(()),
            Some(cut) => write!(f, "; {cut}"),
        }
    }
}

/// The store with all that was kept, its callers' numbers, the folder, and what it was opened from.
pub type Found = (Store, Numbering, Folder, Opened);

pub fn open(path: &Path, options: Options) -> Result<Found, FileError> {
    let path = &files::found(path)?;
    look::latest(&files::list(path)?)?; // before a lock is left where there is no store
    let lock = FolderLock::of(path, options.file_mode())?;
    let (read, opened) = read(path, options)?;
    let folder = Folder::new(path, read.journal, options, read.generations, lock);
    Ok((read.store, read.numbers, folder, opened))
}

/// A folder's store, and the journal that goes on.
pub struct Read {
    pub store: Store,
    pub numbers: Numbering,
    pub journal: Journal,
    pub generations: Generations,
}

/// Reads a folder that is locked, and makes it ready to go on.
pub fn read(path: &Path, options: Options) -> Result<(Read, Opened), FileError> {
    let found = Look::at(path)?;
    let mut opened = found.opened();
    let place = Place {
        store: found.generation,
        journal: found.last.header.generation,
    };
    let generations = Generations {
        now: place,
        salt: found.last.header.salt,
        before: found.last.header.before,
        next: None,
    };
    files::sync_folder(path).map_err(at_folder(path))?; // a process that died may not have got so far with the store's name
    let last = files::journal_in(path, place.journal);
    if let Some(cut) = &mut opened.cut {
        kept::keep(path, cut, options.file_mode()).map_err(at(&last))?;
    }
    let journal = resume(&last, &found, options).map_err(at(&last))?;
    note_ended(path, &found.unended)?; // the next one's header is on the disk now
    let _ = files::clear(path, place.store..=place.journal); // what is left does no harm, and the next checkpoint tries again
    new::clear(path);
    let read = Read {
        store: found.store,
        numbers: found.numbers,
        journal,
        generations,
    };
    Ok((read, opened))
}

/// A process that died may not have got so far as to note that a journal has ended. That is done when the next one is on the disk for sure,
/// as the last is once it is resumed, and before it has more entries; if there is room.
fn note_ended(path: &Path, unended: &[Replayed]) -> Result<(), FileError> {
    for found in unended {
        let path = files::journal_in(path, found.header.generation);
        let noted = plain::to_write(&path).and_then(|file| {
            journal::note_ended(&file, found.length, found.last, found.header.salt)
        });
        match noted {
            Ok(()) => (),
            Err(error) if is_no_room(&error) => return Ok(()), // a part of it counts as none
            Err(error) => return Err(at(&path)(error)),
        }
    }
    Ok(())
}

/// Goes on in the last journal, which is at this path, after what is whole.
///
/// What is not known to have been synced is written anew. After a sync that failed, a system may call clean what it has in memory
/// alone: such bytes can be read, and no later sync writes them.
fn resume(path: &Path, found: &Look, options: Options) -> io::Result<Journal> {
    let last = &found.last;
    let file = plain::to_write(path)?;
    if last.cut.is_some() {
        file.set_len(last.length)?;
    }
    let noted = last.noted_bytes(&Input::new(file.try_clone()?, path)?)?;
    let closed = found.closed.filter(|closed| closed.is_of(&last.header));
    let from = closed.map_or(noted, |closed| noted.max(closed.length));
    write_anew(&file, from, last.length)?;
    Journal::resume(file, last, options.sync)
}

/// Writes what stands from one place of a file to another there once more.
fn write_anew(file: &File, from: u64, to: u64) -> io::Result<()> {
    let (mut place, mut part) = (from, vec![0; PART]);
    while place < to {
        let count = (to - place).min(PART as u64) as usize;
        file.read_exact_at(&mut part[..count], place)?;
        file.write_all_at(&part[..count], place)?;
        place += count as u64;
    }
    Ok(())
}
