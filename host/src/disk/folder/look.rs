//! A folder's store made again from its files. Nothing is changed.

use super::closed::Closed;
use super::files::{self, Listing};
use super::open::Opened;
use crate::calls::store::Store;
use crate::disk::file::{self, at, plain, FileError, Loaded};
use crate::disk::journal::{replay, Header, Input, JournalError, JournalErrorKind, Replayed};
use crate::shared::numbering::Numbering;
use std::fs::File;
use std::ops::RangeInclusive;
use std::path::{Path, PathBuf};

/// So many journals are opened beside each other.
const MOST_OPEN: usize = 100;

/// A saved store with the calls of the journals after it made again.
pub struct Look {
    pub store: Store,
    pub numbers: Numbering,
    /// The generation of the saved store.
    pub generation: u64,
    /// The last journal.
    pub last: Replayed,
    /// The journals before it that do not say that they have ended.
    pub unended: Vec<Replayed>,
    /// How many calls were made again, of all journals.
    pub entries: u64,
    /// What is noted of a journal that was closed in order.
    pub closed: Option<Closed>,
}

impl Look {
    /// The store that a folder holds, which nobody else changes. Journals are opened one by one: failed checkpoints may have left many.
    pub fn at(path: &Path) -> Result<Look, FileError> {
        let (closed, listing) = (Closed::read(path), files::list(path)?);
        let generations = generations(&listing)?;
        let saved = load_saved(
            open_saved(path, *generations.start())?,
            *generations.start(),
        )?;
        let read = |g| input(open_journal(path, &listing, g)?, path, g);
        Look::from(saved, generations, read, closed)
    }

    /// The store that a folder holds which another process may be changing. All files are opened before one is read: one that is then
    /// removed can still be read. Of very many each is read by itself, and where one is gone, whoever looks does so again.
    ///
    /// What is noted of a close is read before: the journal has only grown since.
    pub fn beside(path: &Path) -> Result<Look, FileError> {
        let (closed, listing) = (Closed::read(path), files::list(path)?);
        let generations = generations(&listing)?;
        if listing.journals.len() > MOST_OPEN {
            return Look::at(path);
        }
        let saved = open_saved(path, *generations.start())?;
        let mut journals = open_journals(path, &listing, generations.clone())?.into_iter();
        let saved = load_saved(saved, *generations.start())?;
        let next = |g| journals.next().ok_or(FileError::NoJournal(g));
        Look::from(saved, generations, next, closed)
    }

    fn from(
        mut saved: Saved,
        generations: RangeInclusive<u64>,
        read: impl FnMut(u64) -> Result<Input, FileError>,
        closed: Option<Closed>,
    ) -> Result<Look, FileError> {
        let generation = *generations.start();
        let journals = replay_all(generations, read, &mut saved, closed.as_ref())?;
        let last = journals.last;
        if last.ended {
            return Err(FileError::NoJournal(last.header.generation + 1));
        }
        Ok(Look {
            store: saved.store,
            numbers: saved.numbers,
            generation,
            last,
            unended: journals.unended,
            entries: journals.entries,
            closed,
        })
    }

    /// What it was made from.
    pub fn opened(&self) -> Opened {
        Opened {
            generation: self.generation,
            journals: self.last.header.generation - self.generation + 1,
            entries: self.entries,
            cut: self.last.cut.clone(),
        }
    }
}

/// The generation that a folder is opened from.
pub fn latest(listing: &Listing) -> Result<u64, FileError> {
    listing.stores.last().copied().ok_or(FileError::NoStore)
}

/// The generations whose journals there are from that one on.
fn generations(listing: &Listing) -> Result<RangeInclusive<u64>, FileError> {
    let first = latest(listing)?;
    let newest = listing.journals.last().copied().unwrap_or(0);
    Ok(first..=newest.max(first))
}

pub fn open_saved(path: &Path, generation: u64) -> Result<(File, PathBuf), FileError> {
    let path = files::store_in(path, generation);
    match plain::to_read(&path) {
        Ok(file) => Ok((file, path)),
        Err(error) => Err(of_saved(generation, file::at(&path)(error))),
    }
}

/// A saved store of a folder.
pub struct Saved {
    pub store: Store,
    pub numbers: Numbering,
    /// The salt of the journal that goes on after it.
    journal: u64,
}

pub fn load_saved((file, path): (File, PathBuf), generation: u64) -> Result<Saved, FileError> {
    let loaded = file::load_from(file, &path).and_then(Loaded::parts);
    let (store, numbers, journal) = loaded.map_err(|e| of_saved(generation, e))?;
    Ok(Saved {
        store,
        numbers,
        journal,
    })
}

fn of_saved(generation: u64, error: FileError) -> FileError {
    FileError::Saved {
        generation,
        error: Box::new(error),
    }
}

fn open_journal(path: &Path, listing: &Listing, generation: u64) -> Result<File, FileError> {
    if !listing.journals.contains(&generation) {
        return Err(FileError::NoJournal(generation));
    }
    let path = files::journal_in(path, generation);
    plain::to_read(&path).map_err(at(&path))
}

/// A journal of a folder to be read, as long as it is now.
fn input(file: File, path: &Path, generation: u64) -> Result<Input, FileError> {
    let path = files::journal_in(path, generation);
    Input::new(file, &path).map_err(at(&path))
}

/// These journals, to be read. Where another process writes, the length and the header of the last are taken first: a journal that has
/// its header then was begun when the one before had ended, and of that one the length is taken after. So no journal is read up to a
/// place before its end while the next is taken to go on after it.
pub fn open_journals(
    path: &Path,
    listing: &Listing,
    generations: RangeInclusive<u64>,
) -> Result<Vec<Input>, FileError> {
    let open = |g| Ok((open_journal(path, listing, g)?, g));
    let opened: Vec<(File, u64)> = generations.map(open).collect::<Result<_, FileError>>()?;
    let each = opened.into_iter().rev();
    let mut journals: Vec<Input> = each
        .map(|(file, g)| input(file, path, g))
        .collect::<Result<_, FileError>>()?;
    journals.reverse();
    Ok(journals)
}

/// What was found of a folder's journals.
pub struct Journals {
    pub last: Replayed,
    /// Those before it that do not say that they have ended.
    pub unended: Vec<Replayed>,
    /// How many calls were made again.
    pub entries: u64,
}

/// Makes the calls of these journals again, on the saved store of the first one's generation. Each is opened when its turn comes. One that
/// was closed in order holds no fewer entries than it did then.
pub fn replay_all(
    generations: RangeInclusive<u64>,
    mut read: impl FnMut(u64) -> Result<Input, FileError>,
    saved: &mut Saved,
    closed: Option<&Closed>,
) -> Result<Journals, FileError> {
    let (first, newest) = (*generations.start(), *generations.end());
    let mut last: Option<Replayed> = None;
    let (mut unended, mut entries) = (Vec::new(), 0);
    for g in generations {
        let input = read(g)?;
        let header = input.header(g)?;
        let is_needed = last.as_ref().map_or(true, |last| last.ended);
        if g == newest && !is_needed && is_only_begun(header.as_ref(), &input) {
            break;
        }
        let header = header.ok_or_else(|| JournalError::new(g, 0, 0, JournalErrorKind::Header))?;
        match &last {
            Some(last) => last.goes_on_in(&header)?,
            None if header.salt == saved.journal => (),
            None => return Err(header.error(JournalErrorKind::OtherStore).into()),
        }
        let replayed = replay(&input, &header, &mut saved.store)?;
        closed.map_or(Ok(()), |closed| closed.check(&replayed))?;
        entries += replayed.entries();
        unended.extend(last.replace(replayed).filter(|before| !before.ended));
    }
    let last = last.ok_or(FileError::NoJournal(first))?;
    Ok(Journals {
        last,
        unended,
        entries,
    })
}

/// Whether a journal has no whole header; or one that is read after its own saved store alone, and no entries: that store was not saved.
pub fn is_only_begun(header: Option<&Header>, input: &Input) -> bool {
    let is_alone = |header: &Header| header.before == 0;
    header.map_or(true, is_alone) && input.length <= Header::LENGTH
}
