//! A store in a file: saving it and loading it.

mod derived;
mod form;
#[allow(unsafe_code)]
pub(crate) mod lock;
pub(crate) mod new;
mod old;
pub(crate) mod plain;
mod summed;
mod taken;

use crate::calls::areas::{Parts, Storage};
use crate::calls::counters::Version;
use crate::calls::error::Error;
use crate::calls::ffi::State;
use crate::calls::store::Store;
use crate::disk::journal::JournalError;
use crate::shared::numbering::Numbering;
use form::Header;
use std::fmt;
use std::fs::File;
use std::io::{self, BufReader};
use std::path::{Path, PathBuf};
use summed::Summed;
pub(crate) use taken::{put_pages, Taken};

/// Why a store was not saved or not loaded.
///
/// ```
/// use pit_host::{FileError, Store};
/// let refused = Store::load("no/such/file").unwrap_err();
/// assert!(matches!(refused, FileError::Io { .. }));
/// assert!(refused.to_string().starts_with("no/such/file: "));
/// ```
///
/// Later files may be refused for more reasons, so a `match` has an arm for these. Without it:
///
/// ```compile_fail,E0004
/// use pit_host::FileError::{self, *};
/// fn is_whole(error: FileError) -> bool {
///     match error {
///         Io { .. } | Foreign | Truncated { .. } | TooLong { .. } | Checksum => false,
///         Form(_) | Limits(_) | AreaLengths | Counters | Windows | Numbers | Rebuilt => true,
///         Journal(_) | JournalFailed { .. } | NoJournal(_) => false,
///         Closed | OtherProcess => false,
///         Folder { .. } | FolderMoved | NoStore | StoreThere | InUse { .. } | Saved { .. } => false,
///         ReadOnly => true,
///     }
/// }
/// ```
#[derive(Debug)]
#[non_exhaustive]
pub enum FileError {
    /// The system could not open, read, write or rename a file; or what is there is no plain file.
    Io {
        /// The file.
        path: PathBuf,
        /// Why not.
        error: io::Error,
    },
    /// The file does not begin as a store's file does: it is some other file.
    Foreign,
    /// The file is a store's, of a form that is not known here.
    Form(u64),
    /// FORMAT does not accept the limits; with the reason.
    Limits(Error),
    /// The areas' lengths are not those of the limits, or what the file has of the areas is not what the counters say.
    AreaLengths,
    /// The file ends before the areas do.
    Truncated {
        /// The length in bytes that the header asks for; the header's own, where that is cut off.
        expected: u64,
        /// The file's length in bytes.
        found: u64,
    },
    /// The file goes on after the areas.
    TooLong {
        /// The length in bytes that the header asks for.
        expected: u64,
        /// The file's length in bytes.
        found: u64,
    },
    /// The checksum is not that of the header and the areas: some byte is damaged.
    Checksum,
    /// The counters are none that calls on a store of these limits leave, or a record's numbers do not follow from each
    /// other as calls leave them.
    Counters,
    /// The windows are none that SETWINDOWS leaves.
    Windows,
    /// How callers' numbers stand to the store's own is not as a store that was rebuilt has it.
    Numbers,
    /// The store was rebuilt, so that its callers' numbers are not its own: it is loaded by [`Shared::load`](crate::Shared::load).
    Rebuilt,
    /// A journal is damaged, or does not fit the saved store; with what is wrong, and where.
    Journal(JournalError),
    /// A journal could not be written or synced: what returned before that is kept, and no call that changes the store is
    /// made any more. To go on, the folder is opened anew, by [`Durable::reopen`](crate::Durable::reopen) under its running callers.
    JournalFailed {
        /// The first error's kind.
        kind: io::ErrorKind,
        /// The first error's words.
        words: String,
    },
    /// The journal of this generation is not in the folder, and the store cannot be made without it.
    NoJournal(u64),
    /// The folder was closed, and takes no more calls that change the store.
    Closed,
    /// The folder was opened by another process, from which this one was forked: it is that one's.
    OtherProcess,
    /// The system could not make, open or lock the folder, or list what is in it.
    Folder {
        /// The folder.
        path: PathBuf,
        /// Why not.
        error: io::Error,
    },
    /// The folder is no longer where it was opened, or its lock is gone: what is there may be another's, and nothing is saved there.
    FolderMoved,
    /// No saved store is in the folder.
    NoStore,
    /// A store is in the folder already, or a journal with entries.
    StoreThere,
    /// Another process has the folder open, or this one has.
    InUse {
        /// The process, as far as it could be read.
        process: Option<u32>,
    },
    /// The folder was opened to read alone, by a [`Reader`](crate::Reader), and a call would have changed the store.
    ReadOnly,
    /// The folder's saved store of this generation could not be loaded.
    Saved {
        /// The generation: the number in the file's name.
        generation: u64,
        /// Why not.
        error: Box<FileError>,
    },
}

impl FileError {
    /// The file or folder that its words begin with: where the system could not do what was asked for.
    pub fn path(&self) -> Option<&Path> {
        match self {
            FileError::Io { path, .. } | FileError::Folder { path, .. } => Some(path),
            FileError::Saved { error, .. } => error.path(),
            _ => None,
        }
    }
}

impl fmt::Display for FileError {
    fn fmt(&self, f: &mut fmt::Formatter<'_>) -> fmt::Result {
        use FileError::*;
        match self {
            Io { path, error } => {
                let path = path.display();
                write!(f, "{path}: could not be opened, read or written: {error}")
            }
            Foreign => f.write_str("the file is no store's: it begins otherwise"),
            Form(form) => write!(f, "the file has form {form}; only forms 1 to 5 are known"),
            Limits(e) => write!(f, "the store's limits are not allowed; {e}"),
            AreaLengths => {
                f.write_str("the areas' lengths are not those of the store's limits and counters")
            }
            Truncated { expected, found } => {
                write!(f, "the file is cut off: {found} bytes of {expected}")
            }
            TooLong { expected, found } => {
                write!(
                    f,
                    "the file goes on after the store's {expected} bytes: {found} bytes"
                )
            }
            Checksum => f.write_str("the file is damaged: its checksum differs"),
            Counters => {
                f.write_str("the store's counters or records are none that its calls leave")
            }
            Windows => f.write_str("the store's windows are none that its calls leave"),
            Numbers => f.write_str("the file does not say rightly how its callers' numbers stand to the store's own"),
            Rebuilt => f.write_str("the store was rebuilt, and its callers' numbers are not its own: load it as a shared store"),
            Journal(error) => error.fmt(f),
            JournalFailed { words, .. } => {
                write!(
                    f,
                    "the journal could not be written, and no more is: {words}"
                )
            }
            NoJournal(generation) => write!(f, "journal-{generation} is not in the folder"),
            Closed => f.write_str("the folder was closed"),
            OtherProcess => {
                f.write_str("the folder was opened by the process from which this one was forked")
            }
            Folder { path, error } => {
                let path = path.display();
                write!(f, "{path}: the folder could not be opened or read: {error}")
            }
            FolderMoved => f.write_str("the folder is no longer where it was opened, or its lock is gone"),
            NoStore => f.write_str("no saved store is in the folder"),
            StoreThere => f.write_str("a store, or a journal with entries, is in the folder already"),
            ReadOnly => f.write_str("the folder was opened to read alone"),
            InUse { process: Some(id) } => write!(f, "the folder is open already, by process {id}"),
            InUse { process: None } => f.write_str("the folder is open already"),
            Saved { generation, error } => match error.path() {
                Some(_) => error.fmt(f),
                None => write!(f, "store-{generation}: {error}"),
            },
        }
    }
}

impl std::error::Error for FileError {
    fn source(&self) -> Option<&(dyn std::error::Error + 'static)> {
        match self {
            FileError::Io { error, .. } => Some(error),
            FileError::Folder { error, .. } => Some(error),
            FileError::Limits(e) => Some(e),
            FileError::Saved { error, .. } => error.source(),
            _ => None,
        }
    }
}

/// The error of the file at a path.
pub(crate) fn at(path: &Path) -> impl FnOnce(io::Error) -> FileError + '_ {
    move |error| FileError::Io {
        path: path.to_path_buf(),
        error,
    }
}

/// The error of the folder at a path.
pub(crate) fn at_folder(path: &Path) -> impl FnOnce(io::Error) -> FileError + '_ {
    move |error| FileError::Folder {
        path: path.to_path_buf(),
        error,
    }
}

impl From<JournalError> for FileError {
    fn from(error: JournalError) -> FileError {
        FileError::Journal(error)
    }
}

impl<A: Storage> Store<A> {
    /// Saves the store whole, with all lines, open tickets, trees half woven and the site's windows, and gives the last
    /// published version of line 0 that the file holds.
    ///
    /// A new file is written beside the old one, forced to the disk and renamed over it, and the folder is forced to
    /// the disk. So whatever happens, the old file or the new one stands there whole; after an error the old one,
    /// unless only the folder could not be forced. A store that [`load`](Store::load) would not give back, which no
    /// run of calls leaves, is not saved.
    ///
    /// The new file has the old one's mode. Where the path is a link, the file that it leads to is replaced, or made
    /// where there is none, and the link stays. A folder, a device or the like is not replaced. What the system refuses is a
    /// [`FileError::Io`], with the path.
    ///
    /// Until it is renamed the new file has a name like `.pit-4711-0.new`, with the process and a count. A process that
    /// is killed leaves it; the next save in that folder, by any process that may, clears what no living one holds.
    /// Two processes that save to one file do not wait for each other: the file of the one that ends last stays.
    ///
    /// Only what is taken is written, so that the file's length goes with what the store holds. Bytes in pages that are not put,
    /// and in places and records that are not taken, are lost where a host has put some there by hand: no call leaves any, or
    /// reads them.
    ///
    /// The file has numbers of 64 bits, lowest byte first:
    ///
    /// | Bytes | What |
    /// |---|---|
    /// | 0 to 7 | the letters `PITSTORE` |
    /// | 8 to 15 | the form, 5 |
    /// | 16 to 47 | page size; capacities in pages, nodes and updates |
    /// | 48 to 87 | last ticket given; page numbers taken; updates that have a version; node places taken; lines begun |
    /// | 88 to 223 | the lines, packed as in [`State`]: the sources in one number, then a number a line |
    /// | 224 to 351 | the windows, 32 places as in [`Windows`](crate::Windows), two numbers of 16 bits each, lowest byte first |
    /// | 352 to 383 | lengths in bytes of the four parts from 392 on |
    /// | 384 to 391 | checksum, CRC-64/XZ, over bytes 0 to 383 and all bytes from 392 on |
    /// | from 392 | the pages taken, zeros where one is not put; the node places taken, their numbers of 32 bits, lowest byte first; the records of the tickets given, eighteen numbers a record, in the order of [`Record`](crate::Record)'s fields; and a last part: nothing, or the salt of the journal that goes on after the store in a folder, 0 where none does, and then how callers' numbers stand to the store's own, and what their updates took; nothing where it was never rebuilt |
    ///
    /// ```
    /// use pit_host::{Limits, Store, Version};
    /// # fn main() -> Result<(), Box<dyn std::error::Error>> {
    /// let mut store = Store::format(Limits::new(16, 4, 8, 2))?;
    /// store.begin(1)?;
    /// let path = std::env::temp_dir().join(format!("pit-save-{}", std::process::id()));
    /// assert_eq!(store.save(&path)?, Version(0)); // none is published yet
    /// assert!(Store::load(&path)? == store);
    /// # std::fs::remove_file(&path)?;
    /// # Ok(())
    /// # }
    /// ```
    pub fn save(&self, path: impl AsRef<Path>) -> Result<Version, FileError> {
        self.save_at(&SavePlace::of(path.as_ref()))
    }

    /// Saves it in a place.
    pub(crate) fn save_at(&self, place: &SavePlace) -> Result<Version, FileError> {
        let (state, areas) = (self.state(), self.areas().parts());
        check_areas(&state, areas)?;
        let size = state.size as usize;
        let (mut put, zeros) = (vec![false; state.pages as usize], vec![0; size]);
        put_pages(areas.register, &state).for_each(|number| put[number as usize] = true);
        let page = |number: u64| {
            let number = number as usize;
            match put.get(number) {
                Some(true) => &areas.pages[number * size..][..size],
                _ => &zeros[..],
            }
        };
        let taken = Taken {
            state,
            windows: self.windows(),
            page: &page,
            nodes: front(areas.nodes, state.places.saturating_mul(2)),
            register: front(areas.register, state.tickets),
            last_part: &last_part(place.journal, &[]),
        };
        taken.save(place)
    }
}

/// FORMAT accepts the limits, and the areas have their lengths.
fn check_areas(state: &State, areas: Parts<'_>) -> Result<(), FileError> {
    state.limits().check().map_err(FileError::Limits)?;
    let lengths = [areas.pages.len(), areas.nodes.len(), areas.register.len()];
    let due = [state.size * state.pages, 2 * state.nodes, state.updates];
    if lengths.map(|length| length as u64) != due {
        return Err(FileError::AreaLengths);
    }
    Ok(())
}

/// The first so many, or all where there are fewer.
fn front<T>(all: &[T], count: u64) -> &[T] {
    let count = usize::try_from(count).unwrap_or(usize::MAX);
    &all[..count.min(all.len())]
}

impl Store {
    /// Loads a store just as [`save`](Store::save) found it. Everything is checked before there is a store, and the
    /// lengths before memory is taken; [`FileError`] says what can be wrong. Links are followed; what is no plain file at their
    /// end is refused, with [`FileError::Io`].
    ///
    /// A file of an earlier form is loaded as just the store that the same calls leave now. One of form 1, from before there
    /// were lines, has line 0 alone; one of form 1, 2 or 3 has no windows.
    ///
    /// The file of a store that was [rebuilt](crate::Handle::rebuild) is refused, with [`FileError::Rebuilt`]: its callers' numbers are
    /// not the store's own, and would mean other versions here. [`Shared::load`](crate::Shared::load) loads it with them.
    pub fn load(path: impl AsRef<Path>) -> Result<Store, FileError> {
        let (store, numbers) = load(path.as_ref())?.numbered()?;
        if numbers != Numbering::default() {
            return Err(FileError::Rebuilt);
        }
        Ok(store)
    }
}

/// Where a store is saved.
pub struct SavePlace {
    pub path: PathBuf,
    /// The salt of the journal that goes on after it: a folder's saved store is never taken for that of another journal. 0 where none does.
    pub journal: u64,
    /// The mode of a folder's files. None where it is the user's own file: it keeps its mode, and is found by links.
    pub mode: Option<u32>,
}

impl SavePlace {
    /// The user's own file.
    pub fn of(path: &Path) -> SavePlace {
        SavePlace {
            path: path.to_path_buf(),
            journal: 0,
            mode: None,
        }
    }
}

/// The last part of a file: the salt of the journal that goes on after the store, 0 where none does, and how callers' numbers
/// stand to the store's own. Nothing where it would say nothing.
pub fn last_part(journal: u64, numbers: &[u8]) -> Vec<u8> {
    match (journal, numbers) {
        (0, []) => Vec::new(),
        _ => [&journal.to_le_bytes(), numbers].concat(),
    }
}

/// A store, and the last part of its file.
pub struct Loaded {
    pub store: Store,
    pub last_part: Vec<u8>,
}

impl Loaded {
    /// The store, and how its callers' numbers stand to its own.
    pub fn numbered(self) -> Result<(Store, Numbering), FileError> {
        let (store, numbers, _) = self.parts()?;
        Ok((store, numbers))
    }

    /// The same, and the salt of the journal that goes on after it.
    pub fn parts(self) -> Result<(Store, Numbering, u64), FileError> {
        let (mut journal, mut numbers) = ([0; 8], &self.last_part[..]);
        if !numbers.is_empty() {
            let salt = numbers.get(..8).ok_or(FileError::Numbers)?;
            journal.copy_from_slice(salt);
            numbers = &numbers[8..];
        }
        let numbers = Numbering::from_bytes(numbers, &self.store.state());
        let numbers = numbers.ok_or(FileError::Numbers)?;
        Ok((self.store, numbers, u64::from_le_bytes(journal)))
    }
}

/// Loads what [`Taken::save`] has saved, or a file of an earlier form.
pub fn load(path: &Path) -> Result<Loaded, FileError> {
    let file = plain::to_read_by_links(path);
    load_from(file.map_err(at(path))?, path)
}

/// The same from a file that is open, at its front.
pub fn load_from(file: File, path: &Path) -> Result<Loaded, FileError> {
    let found = file.metadata().map_err(at(path))?.len();
    let mut file = Summed::new(BufReader::new(file), path);
    let header = Header::read(&mut file, found)?;
    header.check_lengths()?;
    header.check_length(found)?;

    let areas = header.read_areas(&mut file)?;
    let last_part = header.read_last_part(&mut file)?;
    header.check_checksum(file.sum.value())?;
    header.check_counters()?;
    header.check_windows()?;
    header.check_records(areas.register())?;
    let store = Store::resume(header.state, header.windows, areas);
    Ok(Loaded { store, last_part })
}
