//! The thread that makes a folder's checkpoints, and how one is made.

use crate::calls::counters::Version;
use crate::disk::file::FileError;
use crate::disk::folder::Folder;
use crate::shared::Core;
use std::io;
use std::mem;
use std::sync::{Arc, Condvar, Mutex, MutexGuard, PoisonError};
use std::thread::{self, JoinHandle};

/// One checkpoint: everything up to one moment in the saved store, everything after it in the next journal. Called by the one that has
/// [`Core::keeping`].
pub fn checkpoint(core: &Core, folder: &Folder) -> Result<Version, FileError> {
    folder.begin_generation()?;
    let image = {
        let _alone = core.writer_lock();
        let instance = core.reading();
        folder.switch();
        instance.image()
    };
    let place = folder.settle()?;
    let version = image.save_at(&place)?;
    let _ = folder.end_generation(); // what is left does no harm
    Ok(version)
}

/// What is asked of the thread that makes checkpoints.
#[derive(Default)]
pub struct Checkpoints {
    state: Mutex<Asked>,
    asked: Condvar,
}

#[derive(Default)]
struct Asked {
    is_due: bool,
    /// Whether one is wanted however short the journal is.
    at_once: bool,
    closing: bool,
    /// Why the last one failed, and how long the journal was then.
    failure: Option<String>,
    failed_at: u64,
}

impl Checkpoints {
    fn hold(&self) -> MutexGuard<'_, Asked> {
        self.state.lock().unwrap_or_else(PoisonError::into_inner)
    }

    pub fn ask(&self) {
        self.hold().is_due = true;
        self.asked.notify_all();
    }

    /// Asks for one however short the journal is.
    pub fn ask_at_once(&self) {
        self.hold().at_once = true;
        self.ask();
    }

    /// Whether one was asked for however short the journal is; and how long the journal was when the last one failed.
    fn taken(&self) -> (bool, u64) {
        let mut asked = self.hold();
        (mem::take(&mut asked.at_once), asked.failed_at)
    }

    /// Why the last one that was begun by itself failed, where none has succeeded since.
    pub fn failure(&self) -> Option<String> {
        self.hold().failure.clone()
    }

    /// Asks the thread to end.
    pub fn close(&self) {
        self.hold().closing = true;
        self.asked.notify_all();
    }

    /// One has failed, when the journal had this length.
    fn failed(&self, error: &FileError, length: u64) {
        let mut asked = self.hold();
        (asked.failure, asked.failed_at) = (Some(error.to_string()), length);
    }

    /// The store is saved, and nothing has failed since.
    pub fn succeeded(&self) {
        let mut asked = self.hold();
        (asked.failure, asked.failed_at) = (None, 0);
    }

    /// Waits until one is due; none is where the folder is being closed.
    fn wait(&self) -> bool {
        let mut asked = self.hold();
        while !asked.is_due && !asked.closing {
            let waited = self.asked.wait(asked);
            asked = waited.unwrap_or_else(PoisonError::into_inner);
        }
        asked.is_due = false;
        !asked.closing
    }
}

/// A thread that makes the checkpoints that are due.
pub fn checkpointer(
    core: Arc<Core>,
    folder: Arc<Folder>,
    checkpoints: Arc<Checkpoints>,
) -> io::Result<JoinHandle<()>> {
    let name = "pit checkpoint".to_string();
    thread::Builder::new().name(name).spawn(move || {
        while checkpoints.wait() {
            let _alone = core.keeping(); // another one may be making one just now
            let (at_once, since) = checkpoints.taken();
            let is_due = at_once || folder.is_due_after(since);
            if !is_due || folder.journal().ready().is_err() {
                continue;
            }
            match checkpoint(&core, &folder) {
                Ok(_) => checkpoints.succeeded(),
                Err(error) => checkpoints.failed(&error, folder.journal().length()),
            }
        }
    })
}
