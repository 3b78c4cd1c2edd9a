//! How a folder keeps its store.

use crate::disk::journal::SyncAt;

/// Who may do what with a folder's files, where nothing else is said: their owner alone.
const MODE: u32 = 0o600;
/// The owner reads and writes them at any rate.
const OWNER: u32 = 0o600;
/// The bits of a mode that can be chosen, and those of who may read.
const CHOSEN: u32 = 0o777;
const READ: u32 = 0o444;

/// From how many bytes on a journal is followed by the next, where nothing else is said: 64 MiB.
const CHECKPOINT_AT: u64 = 64 << 20;

/// How a folder keeps its store.
///
/// ```
/// use pit_host::{Options, SyncAt};
/// let options = Options::new().sync(SyncAt::EachCall).checkpoint_at(1 << 20);
/// assert_eq!((options.sync, options.checkpoint_at), (SyncAt::EachCall, 1 << 20));
/// ```
#[derive(Clone, Copy, Debug, PartialEq, Eq)]
#[non_exhaustive]
pub struct Options {
    /// What is synced to the disk when; usually [`SyncAt::EachPublish`].
    pub sync: SyncAt,
    /// From how many bytes of the journal on the store is saved anew and another journal begun; 0 is never, unless asked
    /// to. Usually 64 MiB.
    pub checkpoint_at: u64,
    /// The mode of the files that are made in the folder. Usually 0o600; [`Options::mode()`] says more.
    pub mode: u32,
}

impl Options {
    /// The usual ones.
    pub fn new() -> Options {
        Options {
            sync: SyncAt::default(),
            checkpoint_at: CHECKPOINT_AT,
            mode: MODE,
        }
    }

    /// These, with another choice of what is synced when.
    pub fn sync(mut self, sync: SyncAt) -> Options {
        self.sync = sync;
        self
    }

    /// These, with another length at which a journal is followed by the next.
    pub fn checkpoint_at(mut self, bytes: u64) -> Options {
        self.checkpoint_at = bytes;
        self
    }

    /// These, with another mode of the files that are made in the folder: who may read and write them. They get just this one,
    /// whatever the process's mask is; the owner reads and writes them at any rate, and no bits above 0o777 count. A folder that is
    /// made gets it too, and whoever may read it may also search it: 0o700 for 0o600. A folder and a journal that are there keep
    /// theirs; a file system that has but one mode keeps that.
    ///
    /// Whoever may read the file `lock` can hold it, and keep the folder from being opened; so what it has above this mode is
    /// taken from it when its owner opens the folder. The folder itself is locked too: whoever may list it can hold that lock.
    ///
    /// ```
    /// use pit_host::{Durable, Limits, Options, Store};
    /// use std::os::unix::fs::PermissionsExt;
    /// # fn main() -> Result<(), Box<dyn std::error::Error>> {
    /// # let folder = std::env::temp_dir().join(format!("pit-mode-{}", std::process::id()));
    /// # let folder = &folder;
    /// let options = Options::new().mode(0o640); // a group may read it, and so hold its locks
    /// let store = Durable::create(folder, Store::format(Limits::new(16, 8, 16, 4))?, options)?;
    /// let mode = |path| std::fs::metadata(path).map(|file| file.permissions().mode() & 0o777);
    /// assert_eq!((mode(folder.clone())?, mode(folder.join("journal-1"))?), (0o750, 0o640));
    /// # drop(store);
    /// # std::fs::remove_dir_all(folder)?;
    /// # Ok(())
    /// # }
    /// ```
    pub fn mode(mut self, mode: u32) -> Options {
        self.mode = mode;
        self
    }

    /// The mode of a file.
    pub(crate) fn file_mode(&self) -> u32 {
        self.mode & CHOSEN | OWNER
    }

    /// The mode of a folder: who may read it may search it.
    pub(crate) fn folder_mode(&self) -> u32 {
        let mode = self.file_mode();
        mode | (mode & READ) >> 2
    }
}

impl Default for Options {
    fn default() -> Options {
        Options::new()
    }
}
