//! A folder that keeps a store: nothing that returned is lost with the process.
//!
//! ```text
//! lock               locked by the process that has the folder open, as the folder itself is, with its number in it
//! store-G            the saved store of generation G
//! journal-G          the calls since then, in order
//! closed             how far the journal went when the folder was last closed in order
//! journal-G.cut-N    what opening has cut off journal-G, where whole entries were in it
//! ```
//!
//! A checkpoint begins generation G+1. What it does, in this order:
//!
//! 1. It syncs journal-G, makes the file journal-(G+1), empty, and forces its name to the disk.
//! 2. At one moment, under the store's lock, it copies the store, and says that all later entries are the next journal's.
//! 3. Whoever writes next, or [`Folder::settle`], writes the entries before that moment to journal-G and syncs it; then writes
//!    the header of journal-(G+1) and syncs that; then notes at the end of journal-G that it has ended, and syncs it once more; and
//!    only then writes entries behind that header. Writers wait for these three syncs, of which the first has little left to do.
//! 4. After `settle`, the copy is saved: written beside, synced, renamed to store-(G+1), and the name forced to the disk.
//! 5. All files of earlier generations are removed.
//!
//! Opening takes the highest saved store, H, and the journals H, H+1 and so on up to the last, in turn. At whatever point a process
//! dies or the power is cut, that is the store with all that was kept:
//!
//! - Up to step 4's rename, H is G. After step 1 a journal-(G+1) is there without a whole header: it counts as not there, unless
//!   journal-G says that it has ended.
//! - A whole header of journal-(G+1) is there only after journal-G was synced to its last entry. So of all journals but the
//!   last nothing may be cut off, and each goes on with the number after the last of the one before. Anything else is
//!   damage, and an error. Only the last journal may be torn, and the note at the end of the one before it.
//! - Journal-G says that it has ended only when that header is on the disk, and before there are entries behind it. So where it says so,
//!   a journal-(G+1) that is missing, or has no whole header, was lost, and that is an error. Where it does not, and its next one has
//!   its header, a process died between the two: nothing is lost, and opening syncs the one, then notes the other before it goes on, if
//!   there is room.
//!   Without it, as in a folder from before there were such notes, a next journal that is lost goes unseen. So where more than one
//!   journal was read, a checkpoint is made at once: then there is one again.
//! - From the rename on H is G+1. Its journal has a whole header, since that was synced before; journal-G is not read, and
//!   whatever of step 5 was done makes no difference. The copy is of the moment at which journal-(G+1) begins, so that nothing is
//!   done twice or left out.
//! - A saved store has the salt of its journal in it, and a journal that of the one before it. So no file of another folder, or of
//!   another time, is taken for this folder's.
//! - A store that is rebuilt is no copy: its journal does not go on after the one before, and has a header that says so; the one before
//!   does not say that it has ended. Without its saved store such a journal has no entries, and counts as not there. Where that store could
//!   not be saved, the header is written anew and synced, and then the one before says that it has ended, before there are entries.
//! - A name store-H is there only when the file is whole and synced. One that cannot be loaded is damage, and an error: the
//!   generation before it may be gone already, and no older one is taken in silence.
//! - A checkpoint that fails after step 2 leaves the later entries in journal-(G+1), and the next one begins generation G+2. So
//!   there may be any number of journals after the saved store. No journal is made before the header of the one before is
//!   on the disk, so that only the last can lack one.
//! - A folder is made in this order too: journal-1 with its header, then store-1. Without the latter there is no store, and
//!   making one may begin anew. Where it fails, what was made is removed in the other order.
//!
//! All of them are plain files: nothing in a folder is opened through a link, and a pipe or the like in a file's place is an error. A new
//! one is new: nothing that is there is overwritten. They have the mode in the [`Options`].
//!
//! What opening cuts off or removes, it does after everything has been read and checked. Opened after a crash in the middle
//! of that, the folder is what it was. Where there are whole entries in what it cuts off, that is copied to a new file first, and on the
//! disk before anything is cut: none of these entries is known to have been synced, but somebody may want to look. Nothing removes such a
//! file. A note that has no room is not written.
//!
//! At a close all is written and synced, what was written ahead is taken away, and `closed` is written beside, synced and renamed over
//! the old one: generation, salt, length and last entry of the journal. A journal only grows, so that stays true, and a journal with that
//! generation and salt which has fewer entries was cut, if by whole entries: an error. After a crash there is an older such file, or none,
//! and a power cut may have taken what was not synced: not more than what was written since. It is read before the journals are.

mod closed;
mod earlier;
mod files;
mod kept;
mod lock;
mod look;
mod open;
mod options;
#[cfg(test)]
mod tests;

use crate::calls::areas::Storage;
use crate::calls::counters::Version;
use crate::calls::store::Store;
use crate::disk::file::{at, at_folder, plain, FileError, SavePlace};
use crate::disk::journal::{is_no_room, new_salt, Header, Journal};
use crate::shared::numbering::Numbering;
use closed::Closed;
use std::fmt;
use std::fs::{self, File};
use std::io;
use std::path::{Path, PathBuf};
use std::sync::{Arc, Mutex, MutexGuard, PoisonError, RwLock};

pub(crate) use earlier::earlier;
pub use earlier::{Comparison, Earlier};
pub(crate) use lock::open_by;
use lock::FolderLock;
pub use lock::OpenBy;
pub(crate) use look::Look;
pub use open::{Found, Opened};
pub use options::Options;

/// The first generation of a folder.
const FIRST: u64 = 1;

/// A folder that keeps a store, open: no other process can open it until this is dropped.
pub struct Folder {
    path: PathBuf,
    options: Options,
    /// Another one, where the folder was opened anew.
    journal: RwLock<Arc<Journal>>,
    generations: Mutex<Generations>,
    /// Given back last; none while the folder is closed for all handles.
    lock: Mutex<Option<FolderLock>>,
}

/// Which saved store a folder is opened from, and which journal is written.
#[derive(Clone, Copy, Debug, PartialEq, Eq)]
pub struct Place {
    store: u64,
    journal: u64,
}

struct Generations {
    now: Place,
    /// The salt of the journal that is written, and of the one before it.
    salt: u64,
    before: u64,
    /// The journal of the next generation, begun and not yet written.
    next: Option<File>,
}

impl Generations {
    /// Those of a folder that is being made, whose journal has this salt.
    fn first(salt: u64) -> Generations {
        let now = Place {
            store: FIRST,
            journal: FIRST,
        };
        Generations {
            now,
            salt,
            before: 0,
            next: None,
        }
    }

    /// The place of the saved store that the journal which is written goes on after.
    fn save_place(&self, folder: &Path, options: &Options) -> SavePlace {
        SavePlace {
            path: files::store_in(folder, self.now.journal),
            journal: self.salt,
            mode: Some(options.file_mode()),
        }
    }
}

impl Folder {
    /// A folder with this store, which stays the caller's. Refused where a store is there already; where there is no folder,
    /// it is made.
    pub(crate) fn create<A: Storage>(
        path: impl AsRef<Path>,
        store: &Store<A>,
        options: Options,
    ) -> Result<Folder, FileError> {
        Folder::create_by(path.as_ref(), options, |place| store.save_at(place))
    }

    /// The same with the store that is saved when this is called with its place.
    pub(crate) fn create_by(
        path: &Path,
        options: Options,
        save: impl FnOnce(&SavePlace) -> Result<Version, FileError>,
    ) -> Result<Folder, FileError> {
        files::make_folder(path, options.folder_mode()).map_err(at_folder(path))?;
        let path = &files::found(path)?;
        let lock = FolderLock::of(path, options.file_mode())?;
        clear_for_new(path)?;

        let header = Header {
            generation: FIRST,
            first: 1,
            salt: new_salt(),
            before: 0,
        };
        let generations = Generations::first(header.salt);
        let begun = begin_first(path, header, options).and_then(|journal| {
            save(&generations.save_place(path, &options))?;
            Ok(journal)
        });
        match begun {
            Ok(journal) => Ok(Folder::new(path, journal, options, generations, lock)),
            Err(error) => {
                files::unmake(path, FIRST); // as long as it is locked
                Err(error)
            }
        }
    }

    /// Takes away the store of a folder that was just made, where it could not be started after all.
    pub(crate) fn unmake(&self) {
        files::unmake(&self.path, FIRST);
    }

    /// Opens a folder. One that another process has open, or this one, is refused.
    pub fn open(path: impl AsRef<Path>, options: Options) -> Result<Found, FileError> {
        open::open(path.as_ref(), options)
    }

    fn new(
        path: &Path,
        journal: Journal,
        options: Options,
        generations: Generations,
        lock: FolderLock,
    ) -> Folder {
        Folder {
            path: path.to_path_buf(),
            options,
            journal: RwLock::new(Arc::new(journal)),
            generations: Mutex::new(generations),
            lock: Mutex::new(Some(lock)),
        }
    }

    fn lock(&self) -> MutexGuard<'_, Option<FolderLock>> {
        self.lock.lock().unwrap_or_else(PoisonError::into_inner)
    }

    fn generations(&self) -> MutexGuard<'_, Generations> {
        let held = self.generations.lock();
        held.unwrap_or_else(PoisonError::into_inner)
    }

    /// Makes the next generation's journal ready, with no lock of the store held. One thread at a time makes a checkpoint.
    pub(crate) fn begin_generation(&self) -> Result<(), FileError> {
        self.check_place()?;
        let journal = self.journal();
        journal.settle()?;
        journal.sync()?; // next to nothing is left to be synced while writers wait
        let mut generations = self.generations();
        if generations.next.is_none() {
            let (next, mode) = (generations.now.journal + 1, self.options.file_mode());
            generations.next = Some(files::new_journal(&self.path, next, mode)?);
        }
        Ok(())
    }

    /// Checks that the folder is still where it was: what is there now may be another's.
    fn check_place(&self) -> Result<(), FileError> {
        match &*self.lock() {
            None => Err(FileError::Closed),
            Some(lock) if lock.is_at(&self.path)? => Ok(()),
            Some(_) => Err(FileError::FolderMoved),
        }
    }

    /// Called under the store's lock, at the moment whose store is saved: all later entries are the next generation's. Gives
    /// that generation; none where it was not begun, and then nothing has changed. Waits for no disk.
    pub(crate) fn switch(&self) -> Option<u64> {
        self.begin_journal(false)
    }

    /// The same where another store is to take the place of the one that there was: the next journal does not go on after this one.
    pub(crate) fn switch_to_another(&self) -> Option<u64> {
        self.begin_journal(true)
    }

    fn begin_journal(&self, alone: bool) -> Option<u64> {
        let mut generations = self.generations();
        let next = generations.next.take()?;
        generations.now.journal += 1;
        generations.before = generations.salt;
        generations.salt = new_salt();
        let header = Header {
            generation: generations.now.journal,
            first: 0, // known to the journal
            salt: generations.salt,
            before: if alone { 0 } else { generations.before },
        };
        self.journal().switch(next, header);
        Some(header.generation)
    }

    /// Returns when the journal that the last switch ended is synced, and the one that it began has its header on the disk: before
    /// that no store is put in the place that this gives.
    pub(crate) fn settle(&self) -> Result<SavePlace, FileError> {
        self.journal().settle()?;
        Ok(self.save_place())
    }

    /// The place of the saved store that the journal which is written goes on after.
    fn save_place(&self) -> SavePlace {
        self.generations().save_place(&self.path, &self.options)
    }

    /// Takes back another store that was to be saved there, whether it is there or not: the journal goes on after the one before it
    /// after all.
    pub(crate) fn take_back(&self, place: &SavePlace) -> io::Result<()> {
        match fs::remove_file(&place.path) {
            Ok(()) => files::sync_folder(&self.path)?,
            Err(e) if e.kind() == io::ErrorKind::NotFound => (),
            Err(e) => return Err(e),
        }
        let (before, generation) = {
            let generations = self.generations();
            (generations.before, generations.now.journal - 1)
        };
        let ended = plain::to_write(&files::journal_in(&self.path, generation))?;
        self.journal().go_on_after(before, &ended)
    }

    /// Called when the store of the last switch is saved, in the place that [`settle`](Folder::settle) gave: removes what was
    /// needed only without it.
    pub(crate) fn end_generation(&self) -> Result<(), FileError> {
        self.check_place()?;
        let place = {
            let mut generations = self.generations();
            let journal = generations.now.journal;
            let saved = files::store_in(&self.path, journal);
            if plain::found(&saved).map_err(at(&saved))?.is_none() {
                return Err(FileError::NoStore);
            }
            generations.now.store = journal;
            generations.now
        };
        files::clear(&self.path, place.store..=place.journal)
    }

    /// The generation whose journal is written.
    pub(crate) fn generation(&self) -> u64 {
        self.generations().now.journal
    }

    /// Whether checkpoints are made by themselves.
    pub(crate) fn makes_checkpoints(&self) -> bool {
        self.options.checkpoint_at != 0
    }

    /// Whether the journal is as long as it should get.
    pub(crate) fn is_due(&self) -> bool {
        self.is_due_after(0)
    }

    /// Whether it has grown by as much since it had this length.
    pub(crate) fn is_due_after(&self, length: u64) -> bool {
        let at = self.options.checkpoint_at;
        at != 0 && self.journal().length() >= length.saturating_add(at)
    }

    /// The journal that is written.
    pub(crate) fn journal(&self) -> Arc<Journal> {
        let held = self.journal.read();
        Arc::clone(&held.unwrap_or_else(PoisonError::into_inner))
    }

    /// Closes the journal in order, and notes beside it how far it goes. All that returned is on the disk then, and no more is taken:
    /// [`FileError::Closed`]. The lock stays until this is dropped. After a failure nothing is noted, and it is given. Closing twice does
    /// no harm.
    pub(crate) fn close(&self) -> Result<(), FileError> {
        let end = self.journal().close()?;
        let closed = Closed {
            generation: end.header.generation,
            salt: end.header.salt,
            length: end.length,
            last: end.last,
        };
        self.check_place()?;
        match closed.write(&self.path, self.options.file_mode()) {
            Err(error) if is_no_room(&error) => Ok(()), // all is kept, and the note can be done without
            written => written.map_err(at(&Closed::path_in(&self.path))),
        }
    }

    /// The same, and gives the lock back, whatever came of it: another process may open the folder then. Where that was done already,
    /// gives what came of it then. Nobody makes a checkpoint meanwhile.
    pub(crate) fn close_and_unlock(&self) -> Result<(), FileError> {
        if self.lock().is_none() {
            return self.journal().close().map(drop);
        }
        let closed = self.close();
        drop(self.lock().take());
        closed
    }

    /// Opens the folder anew, as [`open`](Folder::open) does, with the lock still held, or taken again where it was given back: after a
    /// failure of the journal, or when it was closed. The journal that there was writes no more. After an error all is as it was, and this
    /// can be called again. Nobody makes a checkpoint meanwhile.
    pub(crate) fn reopen(&self) -> Result<(Store, Numbering, Opened), FileError> {
        let was_unlocked = self.lock().is_none();
        if was_unlocked {
            *self.lock() = Some(FolderLock::of(&self.path, self.options.file_mode())?);
        }
        let reopened = self.reopen_locked();
        if was_unlocked && reopened.is_err() {
            drop(self.lock().take());
        }
        reopened
    }

    fn reopen_locked(&self) -> Result<(Store, Numbering, Opened), FileError> {
        self.check_place()?;
        let _ = self.journal().close(); // what failed, failed before
        let (found, opened) = open::read(&self.path, self.options)?;
        *self.generations() = found.generations;
        let mut journal = self.journal.write().unwrap_or_else(PoisonError::into_inner);
        *journal = Arc::new(found.journal);
        Ok((found.store, found.numbers, opened))
    }

    /// The folder's path.
    pub(crate) fn path(&self) -> &Path {
        &self.path
    }
}

/// A folder's first journal, with its header on the disk.
fn begin_first(path: &Path, header: Header, options: Options) -> Result<Journal, FileError> {
    let file = files::new_journal(path, FIRST, options.file_mode())?;
    let begun = Journal::begin(file, header, options.sync);
    begun.map_err(at(&files::journal_in(path, FIRST)))
}

/// Where making a folder was broken off before its store was there, what is left is removed. A store that is there, or a
/// journal with entries, is not.
fn clear_for_new(path: &Path) -> Result<(), FileError> {
    let listing = files::list(path)?;
    let journals = listing.journals.iter();
    let journals: Vec<PathBuf> = journals.map(|g| files::journal_in(path, *g)).collect();
    let has_entries = |path: &PathBuf| {
        let file = plain::found(path).map_err(at(path))?;
        Ok(file.map_or(false, |file| file.len() > Header::LENGTH))
    };
    let has_entries: Vec<bool> = journals
        .iter()
        .map(has_entries)
        .collect::<Result<_, FileError>>()?;
    if !listing.stores.is_empty() || has_entries.contains(&true) {
        return Err(FileError::StoreThere);
    }
    journals
        .iter()
        .try_for_each(|path| fs::remove_file(path).map_err(at(path)))
}

/// Whoever wants to know what comes of it calls [`close`](Folder::close) before.
impl Drop for Folder {
    fn drop(&mut self) {
        let _ = self.close();
    }
}

impl fmt::Debug for Folder {
    fn fmt(&self, f: &mut fmt::Formatter<'_>) -> fmt::Result {
        f.debug_struct("Folder")
            .field("path", &self.path)
            .field("generation", &self.generation())
            .finish()
    }
}
