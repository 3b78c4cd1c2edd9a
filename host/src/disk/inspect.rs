//! A folder looked at without opening it.

use crate::calls::ffi::State;
use crate::disk::file::FileError;
use crate::disk::folder::{self, Earlier, Look, OpenBy, Opened};
use crate::failure::Failure;
use crate::shared::Shared;
use std::path::Path;
use std::thread;
use std::time::Duration;

/// A folder that another process has open is looked at so often at most.
const LOOKS: usize = 10;
/// How long is waited before it is looked at again.
const PAUSE: Duration = Duration::from_millis(10);

/// A folder's store, made again in memory from the files as they stand.
#[derive(Debug)]
#[non_exhaustive]
pub struct Inspection {
    /// The store, as opening the folder would give it. What is done with it stays in memory.
    pub store: Shared,
    /// What the calls carry from one to the next, by the store's own numbers.
    pub state: State,
    /// What opening the folder would read, and what it would cut off.
    pub found: Opened,
    /// How many bytes of the last journal are whole.
    pub journal_length: u64,
    /// The number of the last entry, counted since the folder was made.
    pub last_entry: u64,
    /// Which process has the folder open.
    pub open_by: OpenBy,
}

/// Looks at the folder of a [`Durable`](crate::Durable) store: the saved store, with the calls of the journals made again. Nothing is changed and
/// nothing locked, so it may be open meanwhile, in this process or another one; what is at the journal's end may then be just being written, and a
/// version be there whose writer still waits for the disk. To read a folder and do no more with it, there is [`Reader`](crate::Reader).
///
/// ```
/// use pit_host::{inspect, Durable, Limits, Line, OpenBy, Options, PageIndex, Store, Version};
/// # fn main() -> Result<(), pit_host::Failure> {
/// # let folder = std::env::temp_dir().join(format!("pit-inspect-{}", std::process::id()));
/// # let folder = &folder;
/// let live = Line(0);
/// let durable = Durable::create(folder, Store::format(Limits::new(16, 8, 16, 4))?, Options::new())?;
/// durable.append_pages(live, &[&[1; 16]])?;
///
/// let seen = inspect(folder)?;
/// assert_eq!(seen.open_by, OpenBy::Process(std::process::id()));
/// assert_eq!(seen.store.recent(live)?, Version(1));
/// assert_eq!(seen.store.snapshot(live, Version(1))?.view(PageIndex(0))?, [1; 16]);
/// assert_eq!((seen.found.generation, seen.found.entries), (1, 5));
/// # drop(durable);
/// # std::fs::remove_dir_all(folder).unwrap();
/// # Ok(())
/// # }
/// ```
pub fn inspect(folder: impl AsRef<Path>) -> Result<Inspection, Failure> {
    let path = folder.as_ref();
    let found = look(path)?;
    Ok(Inspection {
        state: found.store.state(),
        found: found.opened(),
        journal_length: found.last.length,
        last_entry: found.last.last,
        store: Shared::numbered(found.store, found.numbers),
        open_by: folder::open_by(path)?,
    })
}

/// Compares what is left of earlier generations in a folder, if anything is, with the saved stores that came after: the calls of their journals are made
/// again, and must have left these to the last byte. Nothing is changed and nothing locked, as in [`inspect`].
pub fn inspect_earlier(folder: impl AsRef<Path>) -> Result<Vec<Earlier>, Failure> {
    Ok(steady(|| folder::earlier(folder.as_ref()))?)
}

/// The store that a folder holds, whoever has it open. Nothing is changed.
pub(crate) fn look(folder: &Path) -> Result<Look, FileError> {
    steady(|| Look::beside(folder))
}

/// Looks until two looks in a row fail alike. Files that another process replaces meanwhile make one fail, and not the next.
fn steady<T>(look: impl Fn() -> Result<T, FileError>) -> Result<T, FileError> {
    let mut before = String::new();
    for _ in 1..LOOKS {
        match look() {
            Err(error) if error.to_string() != before => before = error.to_string(),
            done => return done,
        }
        thread::sleep(PAUSE);
    }
    look()
}
