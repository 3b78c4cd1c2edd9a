//! What is left of earlier generations, compared with the saved store that came after.

use super::files::{self, Listing};
use super::look::{load_saved, open_journals, open_saved, replay_all, Saved};
use crate::calls::difference::Difference;
use crate::calls::store::Store;
use crate::disk::file::FileError;
use crate::disk::journal::{Input, JournalError, JournalErrorKind};
use std::path::Path;

/// An earlier saved store that a folder still has, as where a process died before it was removed. Opening does not read it.
#[derive(Clone, Debug, PartialEq, Eq)]
#[non_exhaustive]
pub struct Earlier {
    /// Its generation.
    pub generation: u64,
    /// The generation of the saved store that came after it.
    pub next: u64,
    /// How many calls were made again, from the one to the other.
    pub entries: u64,
    /// What came of it.
    pub comparison: Comparison,
}

/// How an earlier saved store, with the calls of its journals made again, stands to the saved store that came after it.
#[derive(Clone, Copy, Debug, PartialEq, Eq)]
#[non_exhaustive]
pub enum Comparison {
    /// They are the same, to the last byte.
    Same,
    /// They are not, and one of them is wrong; with where they first differ.
    Differs(Difference),
    /// The later one was [rebuilt](crate::Handle::rebuild) from the earlier: it is another store.
    Rebuilt,
    /// The journal of this generation is gone already, so that there is nothing to compare.
    NoJournal(u64),
}

/// Compares each saved store of a folder with the one before it.
pub fn earlier(path: &Path) -> Result<Vec<Earlier>, FileError> {
    let listing = files::list(path)?;
    let pairs = listing.stores.windows(2);
    pairs
        .map(|pair| compare(path, &listing, pair[0], pair[1]))
        .collect()
}

fn compare(
    path: &Path,
    listing: &Listing,
    generation: u64,
    next: u64,
) -> Result<Earlier, FileError> {
    let answer = |entries, comparison| Earlier {
        generation,
        next,
        entries,
        comparison,
    };
    let is_missing = |g: &u64| !listing.journals.contains(g);
    if let Some(missing) = (generation..=next).find(is_missing) {
        return Ok(answer(0, Comparison::NoJournal(missing)));
    }
    let (before, after) = (open_saved(path, generation)?, open_saved(path, next)?);
    let journals = open_journals(path, listing, generation..=next)?;
    let (mut before, after) = (load_saved(before, generation)?, load_saved(after, next)?);
    let (entries, rebuilt) = replay_up_to(next, journals, &mut before)?;
    Ok(match rebuilt {
        true => answer(entries, Comparison::Rebuilt),
        false => answer(entries, compared(&before.store, &after.store)),
    })
}

/// Makes the calls of all these journals but the last again, which is the one of generation `next`. All of them are whole:
/// what its header says was true when it was written. Gives how many calls that were, and whether the next store was rebuilt.
fn replay_up_to(
    next: u64,
    mut journals: Vec<Input>,
    saved: &mut Saved,
) -> Result<(u64, bool), FileError> {
    let header = |g: u64, journal: &Input| {
        let header = journal.header(g)?;
        header.ok_or_else(|| JournalError::new(g, 0, 0, JournalErrorKind::Header))
    };
    let last = journals.pop().ok_or(FileError::NoJournal(next))?;
    let first = next - journals.len() as u64;
    for (g, journal) in (first..).zip(&journals) {
        header(g, journal)?;
    }
    let mut journals = journals.into_iter();
    let read = |g| journals.next().ok_or(FileError::NoJournal(g));
    let replayed = replay_all(first..=next - 1, read, saved, None)?;
    let last = header(next, &last)?;
    let rebuilt = last.before == 0;
    if !rebuilt {
        replayed.last.goes_on_in(&last)?;
    }
    Ok((replayed.entries, rebuilt))
}

fn compared(before: &Store, after: &Store) -> Comparison {
    match before.difference(after) {
        None => Comparison::Same,
        Some(difference) => Comparison::Differs(difference),
    }
}
