//! Writing a journal: writers share writes and syncs.

use super::batch::Batch;
use super::call::Call;
use super::entry::Content;
use super::header::Header;
use super::output::Output;
use super::policy::SyncAt;
use super::progress::Progress;
use super::replay::Replayed;
use crate::disk::file::FileError;
use std::fs::File;
use std::io;
use std::mem;
use std::sync::atomic::{AtomicU64, Ordering};
use std::sync::{Arc, Condvar, Mutex, MutexGuard, PoisonError};
use std::thread::{self, JoinHandle};
use std::time::Duration;

/// A journal that is written. Entries are taken into memory, in order; then whoever waits for one writes all that are there in
/// one write, and the others find theirs written. A sync serves all whose entries were written before it began.
///
/// Where more than one lock is held, they are taken in the order of the fields.
pub struct Journal {
    shared: Arc<Shared>,
    /// The thread that syncs in the background, where the policy wants one.
    syncer: Mutex<Option<JoinHandle<()>>>,
    /// The process that has it open. One that was forked off has neither its threads nor a right to its file.
    process: u32,
}

/// Where a journal ends that was closed: its header, its length in bytes, and the number of its last entry.
#[derive(Clone, Copy, Debug, PartialEq, Eq)]
pub struct End {
    pub header: Header,
    pub length: u64,
    pub last: u64,
}

struct Shared {
    policy: SyncAt,
    /// Held by the one that writes.
    output: Mutex<Output>,
    /// Held for moments.
    taken: Mutex<Batch>,
    /// Held for moments.
    progress: Mutex<Progress>,
    /// A sync has ended. Nobody waits for it unless one is under way.
    synced: Condvar,
    /// There is something to be synced later, or the journal is being closed.
    unsynced: Condvar,
    /// The bytes of the file so far.
    length: AtomicU64,
    /// Called, with no lock that is held for moments, when something has failed.
    on_failure: Mutex<Option<OnFailure>>,
}

/// What is to be done when a journal has failed.
pub type OnFailure = Arc<dyn Fn() + Send + Sync>;

/// The lock, poisoned or not: what it guards is whole at every moment.
fn hold<T>(mutex: &Mutex<T>) -> MutexGuard<'_, T> {
    mutex.lock().unwrap_or_else(PoisonError::into_inner)
}

impl Journal {
    /// A journal that begins in an empty file.
    pub fn begin(file: File, header: Header, policy: SyncAt) -> io::Result<Journal> {
        let output = Output::begin(file, header)?;
        Journal::new(output, header.first - 1, policy)
    }

    /// A journal that goes on in its file, after what was found there.
    pub fn resume(file: File, found: &Replayed, policy: SyncAt) -> io::Result<Journal> {
        Journal::new(Output::resume(file, found)?, found.last, policy)
    }

    pub(super) fn new(output: Output, last: u64, policy: SyncAt) -> io::Result<Journal> {
        let taken = Batch {
            last,
            ..Batch::default()
        };
        let shared = Arc::new(Shared {
            policy,
            length: AtomicU64::new(output.length),
            progress: Mutex::new(Progress::new(Arc::clone(&output.file), last)),
            output: Mutex::new(output),
            taken: Mutex::new(taken),
            synced: Condvar::new(),
            unsynced: Condvar::new(),
            on_failure: Mutex::new(None),
        });
        let syncer = match policy {
            SyncAt::Every(wait) => Some(syncer(Arc::clone(&shared), wait)?),
            _ => None,
        };
        Ok(Journal {
            shared,
            syncer: Mutex::new(syncer),
            process: std::process::id(),
        })
    }

    /// Whether it still takes entries. After the first write or sync that fails it does not, and once it is closed.
    pub fn ready(&self) -> Result<(), FileError> {
        hold(&self.shared.progress).check_open()
    }

    /// Takes no entry any more, as after a write that failed.
    pub fn fail(&self, error: &io::Error) {
        hold(&self.shared.progress).fail(error);
        self.shared.synced.notify_all();
        self.shared.notify_failure();
    }

    /// Has this called whenever a write or sync has failed; at once, where one has already.
    pub fn on_failure(&self, call: OnFailure) {
        *hold(&self.shared.on_failure) = Some(call);
        if self.failure().is_err() {
            self.shared.notify_failure();
        }
    }

    /// The failure, where there is one. One that was closed has none by that.
    pub fn failure(&self) -> Result<(), FileError> {
        hold(&self.shared.progress).check()
    }

    /// Takes an entry into memory, and gives its number.
    pub fn take(&self, call: &Call<'_>) -> u64 {
        hold(&self.shared.taken).append(&Content::Call(*call))
    }

    /// The number of the last entry taken.
    pub fn last(&self) -> u64 {
        hold(&self.shared.taken).last
    }

    /// Returns when all entries up to this number are written, and synced where the policy asks for it.
    pub fn keep(&self, number: u64, relied_on: bool) -> Result<(), FileError> {
        self.shared.write_up_to(number)?;
        if self.shared.policy.waits(relied_on) {
            self.shared.sync_up_to(number)?;
        }
        Ok(())
    }

    /// Returns when all entries taken so far are written and synced.
    pub fn sync(&self) -> Result<(), FileError> {
        self.shared.sync()
    }

    /// The entries taken after this go to the next journal, in this empty file. Waits for no disk: [`settle`](Journal::settle)
    /// does.
    pub fn switch(&self, next: File, header: Header) {
        hold(&self.shared.taken).switch(next, header);
    }

    /// Says that this journal, which has nothing but its header yet, goes on after the one with this salt, which is in this file and has
    /// ended. Called after `settle`.
    pub fn go_on_after(&self, before: u64, file: &File) -> io::Result<()> {
        let mut output = hold(&self.shared.output);
        let ready = hold(&self.shared.progress).check_open();
        ready.map_err(|e| io::Error::new(io::ErrorKind::Other, e.to_string()))?;
        output.go_on_after(before, file)
    }

    /// Writes and syncs all that was taken, and takes away what was written ahead. From then on nothing is written any more: neither
    /// entries nor notes, by whichever thread. Gives where it ends; the failure, where there was one. Closing it twice does no harm.
    pub fn close(&self) -> Result<End, FileError> {
        if self.process != std::process::id() {
            return Err(FileError::Closed); // by fork: it is the other process's
        }
        hold(&self.shared.progress).closing = true;
        self.shared.unsynced.notify_all();
        if let Some(syncer) = hold(&self.syncer).take() {
            let _ = syncer.join(); // what it failed by is kept
        }
        self.shared.close()
    }

    /// Returns when all entries before the last switch are synced, the header of the journal after it is, and so is the note that the
    /// one before it has ended.
    pub fn settle(&self) -> Result<(), FileError> {
        self.shared.write(&mut hold(&self.shared.output))
    }

    /// The number of the last entry that is written.
    pub fn written(&self) -> u64 {
        hold(&self.shared.progress).written
    }

    /// The number of the last entry that is synced.
    pub fn synced(&self) -> u64 {
        hold(&self.shared.progress).synced
    }

    /// The bytes of the journal's file so far.
    pub fn length(&self) -> u64 {
        self.shared.length.load(Ordering::Relaxed)
    }
}

/// What was taken is written, and all is synced once more.
impl Drop for Journal {
    fn drop(&mut self) {
        let _ = self.close(); // nobody is left to be told; after a failure all stays as it is
        let syncer = self.syncer.get_mut();
        mem::forget(syncer.unwrap_or_else(PoisonError::into_inner).take()); // in another process there is no such thread
    }
}

impl Shared {
    fn write_up_to(&self, number: u64) -> Result<(), FileError> {
        let is_written = || hold(&self.progress).written >= number;
        if is_written() {
            return Ok(());
        }
        let mut output = hold(&self.output);
        if is_written() {
            return Ok(()); // by the one that was waited for
        }
        self.write(&mut output)
    }

    /// Writes all that was taken.
    fn write(&self, output: &mut Output) -> Result<(), FileError> {
        hold(&self.progress).check_open()?;
        let batch = hold(&self.taken).take(mem::take(&mut output.room));
        let (last, ends) = (batch.last, !batch.ended.is_empty());
        if ends {
            self.begin_syncing_alone()?;
        }
        let result = output.write_batch(batch);
        self.length.store(output.length, Ordering::Relaxed);

        let mut progress = hold(&self.progress);
        if ends {
            progress.syncing = false;
            self.synced.notify_all();
        }
        match result {
            Ok(()) => {
                if progress.has_written(last, &output.file, output.header.first) {
                    self.unsynced.notify_all();
                }
                Ok(())
            }
            Err(error) => {
                progress.fail(&error);
                let (failed, file) = (progress.check(), Arc::clone(&progress.file));
                drop(progress);
                self.notify_failure();
                let _ = file.sync_data(); // nobody will do it later for what was written before
                failed
            }
        }
    }

    /// Waits until nobody syncs, and has nobody begin to: a journal's last sync is its only one just then.
    fn begin_syncing_alone(&self) -> Result<(), FileError> {
        let mut progress = hold(&self.progress);
        while progress.syncing {
            let waited = self.synced.wait(progress);
            progress = waited.unwrap_or_else(PoisonError::into_inner);
        }
        progress.check()?;
        progress.syncing = true;
        Ok(())
    }

    /// Returns when the entries up to this one, which are written, are synced.
    fn sync_up_to(&self, number: u64) -> Result<(), FileError> {
        let mut progress = hold(&self.progress);
        while progress.synced < number {
            progress.check()?;
            progress = if progress.syncing {
                let waited = self.synced.wait(progress);
                waited.unwrap_or_else(PoisonError::into_inner)
            } else {
                self.sync_written(progress);
                hold(&self.progress)
            };
        }
        Ok(())
    }

    /// Syncs all that is written, with no lock held meanwhile, and notes it in the journal.
    fn sync_written(&self, mut progress: MutexGuard<'_, Progress>) {
        let (file, written) = progress.begin_sync();
        drop(progress);
        let result = file.sync_data();
        hold(&self.progress).end_sync(written, &result);
        self.synced.notify_all();
        match result {
            Ok(()) => self.note_synced(written),
            Err(_) => self.notify_failure(),
        }
    }

    fn note_synced(&self, number: u64) {
        let mut output = hold(&self.output);
        if hold(&self.progress).check_open().is_err() {
            return; // what was half written stays the last; and a journal that is closed may be another's by now
        }
        if let Err(error) = output.note_synced(number) {
            hold(&self.progress).fail(&error);
            self.notify_failure();
        }
        self.length.store(output.length, Ordering::Relaxed);
    }

    fn sync(&self) -> Result<(), FileError> {
        let last = hold(&self.taken).last;
        self.write_up_to(last)?;
        self.sync_up_to(last)
    }

    /// See [`Journal::close`]. All who write hold `output`, and look first whether it is closed: so nobody does once this has set it.
    fn close(&self) -> Result<End, FileError> {
        let synced = if hold(&self.progress).closed {
            Ok(())
        } else {
            self.sync()
        };
        let mut output = hold(&self.output);
        let (was_closed, written) = {
            let mut progress = hold(&self.progress);
            (mem::replace(&mut progress.closed, true), progress.written)
        };
        if !was_closed && hold(&self.progress).check().is_err() {
            let _ = output.cut_unkept(); // what is left does no harm
        }
        synced?;
        if !was_closed {
            self.end(&mut output, written)?;
        }
        hold(&self.progress).check()?;
        Ok(End {
            header: output.header,
            length: output.length,
            last: written,
        })
    }

    /// Syncs what others have written since the last sync, without what was written ahead.
    fn end(&self, output: &mut Output, written: u64) -> Result<(), FileError> {
        self.begin_syncing_alone()?;
        let trimmed = output.trim();
        let result = trimmed.and_then(|()| output.file.sync_data());
        hold(&self.progress).end_sync(written, &result);
        self.synced.notify_all();
        if result.is_err() {
            self.notify_failure();
        }
        hold(&self.progress).check()
    }

    /// Called after a failure is noted, without `progress`.
    fn notify_failure(&self) {
        let call = hold(&self.on_failure).clone();
        if let Some(call) = call {
            call();
        }
    }
}

/// A thread that syncs what has been written for that long, until the journal is closed or has failed.
fn syncer(shared: Arc<Shared>, wait: Duration) -> io::Result<JoinHandle<()>> {
    let name = "pit journal sync".to_string();
    thread::Builder::new().name(name).spawn(move || {
        let mut progress = hold(&shared.progress);
        while !progress.closing && progress.failed.is_none() {
            progress = shared.wait_or_sync(progress, wait);
        }
    })
}

impl Shared {
    /// Syncs if it is time to, else waits until it may be.
    fn wait_or_sync<'a>(
        &'a self,
        progress: MutexGuard<'a, Progress>,
        wait: Duration,
    ) -> MutexGuard<'a, Progress> {
        match progress.due_in(wait) {
            None => {
                let waited = self.unsynced.wait(progress);
                waited.unwrap_or_else(PoisonError::into_inner)
            }
            Some(Duration::ZERO) => {
                let written = progress.written;
                drop(progress);
                let _ = self.sync_up_to(written); // a failure is kept for the next call
                hold(&self.progress)
            }
            Some(rest) => {
                let waited = self.unsynced.wait_timeout(progress, rest);
                waited.unwrap_or_else(PoisonError::into_inner).0
            }
        }
    }
}
