//! How far a journal is written and synced.

use crate::disk::file::FileError;
use std::fs::File;
use std::io::{self, ErrorKind};
use std::sync::Arc;
use std::time::{Duration, Instant};

/// How far a journal is written and synced, by the numbers of entries.
pub struct Progress {
    pub written: u64,
    pub synced: u64,
    /// The file that has the last entries written. All before its first are synced.
    pub file: Arc<File>,
    /// Whether somebody syncs just now.
    pub syncing: bool,
    /// When the first entry was written that no sync has begun for.
    pub unsynced_since: Option<Instant>,
    /// The first write or sync that failed.
    pub failed: Option<(ErrorKind, String)>,
    /// Whether the journal is being closed.
    pub closing: bool,
    /// Whether it takes no entries any more.
    pub closed: bool,
}

impl Progress {
    /// A journal in this file, synced up to this entry.
    pub fn new(file: Arc<File>, synced: u64) -> Progress {
        Progress {
            written: synced,
            synced,
            file,
            syncing: false,
            unsynced_since: None,
            failed: None,
            closing: false,
            closed: false,
        }
    }

    /// An error where no more entries are taken: something failed, or the journal was closed.
    pub fn check_open(&self) -> Result<(), FileError> {
        self.check()?;
        match self.closed {
            true => Err(FileError::Closed),
            false => Ok(()),
        }
    }

    /// An error where something failed: the first failure, whatever it is that is refused.
    pub fn check(&self) -> Result<(), FileError> {
        match &self.failed {
            None => Ok(()),
            Some((kind, words)) => Err(FileError::JournalFailed {
                kind: *kind,
                words: words.clone(),
            }),
        }
    }

    /// Entries up to this one are written, the last of them to this file. Gives whether there is now something to be synced, and
    /// was not before.
    pub fn has_written(&mut self, last: u64, file: &Arc<File>, first_in_file: u64) -> bool {
        let is_more = last > self.written;
        self.written = last;
        if !Arc::ptr_eq(&self.file, file) {
            self.file = Arc::clone(file);
            self.synced = self.synced.max(first_in_file - 1);
        }
        let before = self.unsynced_since;
        self.unsynced_since = match self.synced == last {
            true => None,
            false if is_more => Some(before.unwrap_or_else(Instant::now)),
            false => before,
        };
        before.is_none() && self.unsynced_since.is_some()
    }

    /// A sync begins: of this file, for all entries up to this one.
    pub fn begin_sync(&mut self) -> (Arc<File>, u64) {
        self.syncing = true;
        self.unsynced_since = None;
        (Arc::clone(&self.file), self.written)
    }

    /// The sync that was begun for the entries up to this one has ended.
    pub fn end_sync(&mut self, written: u64, result: &io::Result<()>) {
        self.syncing = false;
        match result {
            // of two syncs of a file at once, one alone is told of an error: after a failure none counts
            Ok(()) if self.failed.is_none() => self.synced = self.synced.max(written),
            Ok(()) => (),
            Err(error) => self.fail(error),
        }
    }

    pub fn fail(&mut self, error: &io::Error) {
        let words = || (error.kind(), error.to_string());
        self.failed.get_or_insert_with(words);
    }

    /// How long it may yet take until something is to be synced that may wait so long; none where there is nothing.
    pub fn due_in(&self, wait: Duration) -> Option<Duration> {
        let since = self.unsynced_since?;
        Some(wait.saturating_sub(since.elapsed()))
    }
}

#[cfg(test)]
mod tests {
    use super::*;

    fn progress() -> Progress {
        let file = File::open("/dev/null").expect("there is one");
        Progress::new(Arc::new(file), 0)
    }

    /// What was written before a sync began is not to be synced once more, also where nothing is written meanwhile.
    #[test]
    fn nothing_written_is_nothing_to_be_synced() {
        let mut progress = progress();
        let file = Arc::clone(&progress.file);
        assert!(progress.has_written(3, &file, 1));
        let (_, written) = progress.begin_sync();
        assert!(!progress.has_written(3, &file, 1));
        progress.end_sync(written, &Ok(()));
        assert_eq!(
            (progress.synced, progress.due_in(Duration::ZERO)),
            (3, None)
        );
        assert!(progress.has_written(4, &file, 1));
    }

    /// Of two syncs of one file the system tells only one of an error. The other has synced no more than that one.
    #[test]
    fn no_sync_counts_after_a_failure() {
        let mut progress = progress();
        let file = Arc::clone(&progress.file);
        progress.has_written(3, &file, 1);
        let (_, written) = progress.begin_sync();
        progress.fail(&io::Error::from(ErrorKind::Other));
        progress.end_sync(written, &Ok(()));
        assert_eq!((progress.synced, progress.syncing), (0, false));
        assert!(progress.check().is_err());
    }
}
