//! A store in a folder that threads share.

mod checkpoints;
#[cfg(test)]
mod tests;

use crate::calls::counters::Version;
use crate::calls::store::Store;
use crate::disk::file::{self, FileError};
use crate::disk::folder::{Folder, Opened, Options};
use crate::disk::journal::{Call, Journal};
use crate::failure::Failure;
use crate::shared::image::Image;
use crate::shared::instance::Instance;
use crate::shared::log::Log;
use crate::shared::numbering::Numbering;
use crate::shared::{Core, Handle};
use checkpoints::{checkpoint, checkpointer, Checkpoints};
use std::mem;
use std::path::Path;
use std::sync::atomic::{AtomicBool, Ordering::SeqCst};
use std::sync::Arc;
use std::thread::JoinHandle;

/// A store that threads share, kept in a folder: the last saved store, and a journal of the calls since. What a call has returned
/// is not lost with the process; what a power cut may take, [`SyncAt`](crate::SyncAt) says.
///
/// All calls are those of a [`Handle`]. A call that changes the store returns when its entry is in the journal. Readers see a version only
/// after its PUBLISH is kept: what they have seen is not gone after a crash, nor, but by [`SyncAt::Every`](crate::SyncAt), after a power cut.
///
/// The journal is followed by another, and the store saved anew, when it has reached the size in the [`Options`]. One process at a time
/// has a folder open, until it ends, [closes](Durable::close) it or drops the last handle. A process that is forked off it has none of
/// it: calls that change the store are refused there with [`FileError::OtherProcess`](crate::FileError), and dropping a handle does
/// nothing to the folder.
///
/// After the first write or sync of the journal that fails, no call that changes the store is made any more, and those who
/// [wait](Handle::wait_published) for a version are told. [`reopen`](Durable::reopen) takes the folder up again.
///
/// ```
/// use pit_host::{Durable, Limits, Line, Options, PageIndex, Store, Version};
/// # fn main() -> Result<(), pit_host::Failure> {
/// # let folder = std::env::temp_dir().join(format!("pit-durable-{}", std::process::id()));
/// # let folder = &folder;
/// let live = Line(0);
/// let store = Durable::create(folder, Store::format(Limits::new(16, 8, 16, 4))?, Options::new())?;
/// store.append_pages(live, &[&[1; 16]])?;
/// drop(store); // or the process is killed
///
/// let (store, opened) = Durable::open(folder, Options::new())?;
/// assert!(opened.cut.is_none());
/// assert_eq!(store.recent(live)?, Version(1));
/// assert_eq!(store.snapshot(live, Version(1))?.view(PageIndex(0))?, [1; 16]);
/// # drop(store);
/// # std::fs::remove_dir_all(folder).unwrap();
/// # Ok(())
/// # }
/// ```
pub type Durable = Handle<InFolder>;

/// In the journal of a folder.
pub struct InFolder {
    folder: Arc<Folder>,
    checkpoints: Arc<Checkpoints>,
    checkpointer: Option<JoinHandle<()>>,
    /// The folder is being opened anew: those who wait for a version wait for that too.
    reopening: AtomicBool,
    /// The process that opened it. One that is forked off has none of its threads.
    process: u32,
}

impl Durable {
    /// Makes a folder with this store. Where there is no folder by that name, one is made; where it has a store already, it is refused,
    /// with [`FileError::StoreThere`]. Where it fails, no store is in the folder, as before, and it can be made again.
    pub fn create(
        folder: impl AsRef<Path>,
        store: Store,
        options: Options,
    ) -> Result<Durable, Failure> {
        let folder = Folder::create(folder, &store, options)?;
        Durable::start_new(Core::new(store, Numbering::default()), folder)
    }

    /// Makes a folder with the store in a file, as [`create`](Durable::create) does. The file is one that was [saved](Handle::save), and stays; a
    /// store that was [rebuilt](Handle::rebuild) goes on with its callers' numbers.
    ///
    /// ```
    /// use pit_host::{Durable, Limits, Line, Options, PageIndex, Store, Version};
    /// # fn main() -> Result<(), pit_host::Failure> {
    /// # let place = std::env::temp_dir().join(format!("pit-restore-{}", std::process::id()));
    /// # let (folder, other, file) = (&place.join("folder"), &place.join("other"), &place.join("file"));
    /// let live = Line(0);
    /// let store = Durable::create(folder, Store::format(Limits::new(16, 8, 16, 4))?, Options::new())?;
    /// for fill in 1..=3 {
    ///     store.update(live, PageIndex(0), &[&[fill; 16]])?;
    /// }
    /// store.rebuild(store.limits(), &[])?; // from here on the file has version 3 and those after it
    /// store.save(file)?;
    ///
    /// let other = Durable::restore(other, file, Options::new())?; // on another machine, say
    /// assert_eq!(other.update(live, PageIndex(0), &[&[4; 16]])?, Version(4));
    /// # drop((store, other));
    /// # std::fs::remove_dir_all(place).unwrap();
    /// # Ok(())
    /// # }
    /// ```
    pub fn restore(
        folder: impl AsRef<Path>,
        file: impl AsRef<Path>,
        options: Options,
    ) -> Result<Durable, Failure> {
        let (store, numbers) = file::load(file.as_ref())?.numbered()?;
        let core = Core::new(store, numbers);
        let folder = Folder::create_by(folder.as_ref(), options, |place| {
            core.image().save_at(place)
        })?;
        Durable::start_new(core, folder)
    }

    /// Opens a folder: the saved store, and the calls of the journal made again. They are proved to be a function of what they are
    /// given, so the store is the same to the last byte. Also tells what it was opened from.
    ///
    /// What is not whole at the journal's end, as a crash leaves it, is cut off, and [`Opened`] says so. Where whole entries are in it, it is
    /// kept in a file beside. Damage before that is an error, and nothing is changed; so is a last journal that is missing, or that holds
    /// fewer entries than when it was closed in order.
    ///
    /// Where there was more than one journal, as after a checkpoint that failed, the store is saved anew at once, in the background, unless
    /// the [`Options`] say that it never is by itself; [`checkpoint_failure`](Durable::checkpoint_failure) tells where that failed.
    pub fn open(folder: impl AsRef<Path>, options: Options) -> Result<(Durable, Opened), Failure> {
        let (store, numbers, folder, opened) = Folder::open(folder, options)?;
        let core = Core::new(store, numbers);
        let durable = Durable::start(core, Arc::new(folder))?;
        durable.log.ask_after(&opened);
        Ok((durable, opened))
    }

    /// Starts with a folder that was just made, which is unmade where that fails.
    fn start_new(core: Core, folder: Folder) -> Result<Durable, Failure> {
        let folder = Arc::new(folder);
        let started = Durable::start(core, Arc::clone(&folder));
        if started.is_err() {
            folder.unmake();
        }
        started
    }

    fn start(core: Core, folder: Arc<Folder>) -> Result<Durable, Failure> {
        let core = Arc::new(core);
        let checkpoints = Arc::new(Checkpoints::default());
        let checkpointer = checkpointer(core.clone(), folder.clone(), checkpoints.clone())
            .map_err(file::at_folder(folder.path()))?;
        let log = InFolder {
            folder,
            checkpoints,
            checkpointer: Some(checkpointer),
            reopening: AtomicBool::new(false),
            process: std::process::id(),
        };
        log.watch(&core);
        Ok(Handle {
            core,
            log: Arc::new(log),
        })
    }

    /// Takes the folder up again under the running callers: after the journal has failed, as on a disk that was full, or when the
    /// folder was [closed](Durable::close). It is read anew, as [`open`](Durable::open) does, and the store that it holds takes the
    /// place of the running one, for every handle and every [`Snapshot`](crate::Snapshot). Calls go on from there. The lock on the
    /// folder is kept, or taken again.
    ///
    /// What returned is there, and so is what readers were shown; but for what was not yet synced, by the choice of
    /// [`SyncAt`](crate::SyncAt), where the disk has lost that, as after a power cut. A call that ended with the journal's failure is
    /// not there where its entry could not be written; where it was written and not synced, it may be.
    ///
    /// Calls that change the store wait meanwhile; readers do not. Those who [wait](Handle::wait_published) for a version wait on.
    /// Refused as by `open`, and where the folder was moved, or another process has it by now: then it is as it was, or closed, and
    /// this can be called again.
    ///
    /// ```
    /// use pit_host::{Durable, FileError, Failure, Limits, Line, Options, Store, Version};
    /// # fn main() -> Result<(), Failure> {
    /// # let folder = std::env::temp_dir().join(format!("pit-reopen-{}", std::process::id()));
    /// # let folder = &folder;
    /// let live = Line(0);
    /// let store = Durable::create(folder, Store::format(Limits::new(16, 8, 16, 4))?, Options::new())?;
    /// store.append_pages(live, &[&[1; 16]])?;
    /// store.close()?; // from here on another process may open it
    /// let refused = store.append_pages(live, &[&[2; 16]]).unwrap_err();
    /// assert!(matches!(refused, Failure::File(FileError::Closed)));
    /// assert_eq!(store.recent(live)?, Version(1)); // readers go on
    ///
    /// store.reopen()?;
    /// assert_eq!(store.append_pages(live, &[&[2; 16]])?, Version(2));
    /// # drop(store);
    /// # std::fs::remove_dir_all(folder).unwrap();
    /// # Ok(())
    /// # }
    /// ```
    pub fn reopen(&self) -> Result<Opened, Failure> {
        self.log.check_process()?;
        let _alone = self.core.keeping();
        let writer = self.core.writer_lock();
        self.log.reopening.store(true, SeqCst);
        let reopened = self.log.folder.reopen();
        let replaced = reopened.map(|(store, numbers, opened)| {
            self.core.replace(Instance::new(store, numbers), writer);
            opened
        });
        self.log.reopening.store(false, SeqCst);
        self.log.watch(&self.core); // also of a journal that failed meanwhile, or was closed and stays so
        let opened = replaced?;
        self.log.checkpoints.succeeded();
        self.log.ask_after(&opened);
        Ok(opened)
    }

    /// Closes the folder, for every handle: waits for a checkpoint that is being made, syncs all that returned, and gives the lock
    /// back. Then another process may open it. Readers go on in memory; calls that change the store, and those who wait for a version,
    /// are refused with [`FileError::Closed`](crate::FileError), until [`reopen`](Durable::reopen) takes the folder up again.
    ///
    /// Dropping the last handle does the same. This says what came of it: the error of the last sync, or the failure that the journal had
    /// before. The folder is closed then too. To close it twice does no harm.
    pub fn close(&self) -> Result<(), Failure> {
        self.log.check_process()?;
        let _alone = self.core.keeping();
        let writer = self.core.writer_lock();
        let closed = self.log.folder.close_and_unlock();
        drop(writer);
        self.core.visible.notify();
        Ok(closed?)
    }

    /// Saves the store as it is at one moment of this call, and begins a new journal from there. Readers do not wait for it, and writers not for
    /// the saving: only for three short syncs, of the end of the one journal, the beginning of the next, and the note that the one has
    /// ended. At every byte of it the folder opens to the same store. Gives the last published version of line 0 in it.
    pub fn checkpoint(&self) -> Result<Version, Failure> {
        self.log.check_process()?;
        let _alone = self.core.keeping();
        let version = checkpoint(&self.core, &self.log.folder)?;
        self.log.checkpoints.succeeded();
        Ok(version)
    }

    /// Why the last checkpoint that was begun by itself failed; none where it did not, or another one has succeeded since, or the
    /// folder was [opened anew](Durable::reopen). The journal goes on then, and another is begun when it has grown by its size once
    /// more.
    pub fn checkpoint_failure(&self) -> Option<String> {
        self.log.checkpoints.failure()
    }

    /// Returns when all calls that have returned are synced to the disk.
    pub fn sync(&self) -> Result<(), Failure> {
        self.log.check_process()?;
        Ok(self.log.folder.journal().sync()?)
    }

    /// How many entries the journal has had, since the folder was made: those that are written, and those that are synced too.
    pub fn entries(&self) -> (u64, u64) {
        let journal = self.log.folder.journal();
        let synced = journal.synced();
        (journal.written(), synced)
    }

    /// The journal's length in bytes.
    pub fn journal_length(&self) -> u64 {
        self.log.folder.journal().length()
    }

    /// The folder.
    pub fn folder(&self) -> &Path {
        self.log.folder.path()
    }
}

impl InFolder {
    fn check_is_opener(&self) -> Result<(), FileError> {
        match self.process == std::process::id() {
            true => Ok(()),
            false => Err(FileError::OtherProcess),
        }
    }

    /// Those who wait for a version are woken when the journal fails; now too, where it has failed.
    fn watch(&self, core: &Arc<Core>) {
        let core = Arc::clone(core);
        core.visible.notify();
        let on_failure = move || core.visible.notify();
        self.folder.journal().on_failure(Arc::new(on_failure));
    }

    /// Asks for a checkpoint where the folder had more than one journal.
    fn ask_after(&self, opened: &Opened) {
        if opened.journals > 1 && self.folder.makes_checkpoints() {
            self.checkpoints.ask_at_once();
        }
    }
}

impl Log for InFolder {
    type Failure = Failure;
    type WindowsFailure = Failure;
    type Journal = Arc<Journal>;

    const AT_ONCE: bool = false;

    fn check_process(&self) -> Result<(), Failure> {
        Ok(self.check_is_opener()?)
    }

    fn journal(&self) -> Arc<Journal> {
        self.folder.journal()
    }

    fn ready(&self, journal: &Arc<Journal>) -> Result<(), Failure> {
        Ok(journal.ready()?)
    }

    fn take(&self, journal: &Arc<Journal>, call: &Call<'_>) -> u64 {
        journal.take(call)
    }

    fn last(&self, journal: &Arc<Journal>) -> u64 {
        journal.last()
    }

    fn keep(&self, journal: &Arc<Journal>, number: u64, relied_on: bool) -> Result<(), Failure> {
        journal.keep(number, relied_on)?;
        if self.folder.is_due() {
            self.checkpoints.ask();
        }
        Ok(())
    }

    /// A journal that is closed to be opened anew is no reason to end, and is followed by another before `reopening` is taken back.
    fn check_awaited(&self) -> Result<(), Failure> {
        self.check_process()?;
        loop {
            let journal = self.folder.journal();
            let ready = journal.ready();
            if ready.is_ok() || self.reopening.load(SeqCst) {
                return Ok(());
            }
            if Arc::ptr_eq(&journal, &self.folder.journal()) {
                return Ok(ready?);
            }
        }
    }

    fn settle(&self, journal: &Arc<Journal>) -> Result<(), FileError> {
        self.check_is_opener()?;
        journal.sync()
    }

    fn replace(&self, image: &Image) -> Result<(), Failure> {
        self.folder.begin_generation()?;
        self.folder.switch_to_another();
        let place = self.folder.settle()?;
        if let Err(error) = image.save_at(&place) {
            // the store that runs on must not be taken for this one
            if let Err(e) = self.folder.take_back(&place) {
                self.folder.journal().fail(&e);
            }
            return Err(error.into());
        }
        let _ = self.folder.end_generation(); // what is left does no harm
        self.checkpoints.succeeded();
        Ok(())
    }
}

/// The thread that makes checkpoints ends before the folder is closed. In a process that was forked off there is no such thread, and
/// its folder, which the thread has too, is never dropped.
impl Drop for InFolder {
    fn drop(&mut self) {
        if self.check_is_opener().is_err() {
            mem::forget(self.checkpointer.take());
            return;
        }
        self.checkpoints.close();
        if let Some(checkpointer) = self.checkpointer.take() {
            let _ = checkpointer.join();
        }
    }
}
