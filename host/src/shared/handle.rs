//! A store that threads share.

use super::{Core, Writer};
use crate::calls::areas::Limits;
use crate::calls::counters::{ByteOffset, Line, Minute, PageIndex, Ticket, Version};
use crate::calls::error::Error;
use crate::calls::ffi::Windows;
use crate::calls::store::{Assigned, Node, Published, Store};
use crate::disk::file::{self, FileError};
use crate::shared::instance::Instance;
use crate::shared::log::{Log, Memory};
use crate::shared::numbering::Numbering;
use std::fmt;
use std::path::Path;
use std::sync::Arc;

/// A handle on a store that threads share: the same calls, on `&self`. Clones are handles on the one store. A [`Shared`] store is
/// in memory, a [`Durable`](crate::Durable) one in a folder too.
///
/// Readers' calls run beside each other; each writers' call runs alone. The lock is held for one call, never from one
/// call to the next, so a writer that dies between calls leaves its ticket open and nobody waiting for a lock. Versions
/// of its line after that writer's own stay unpublished until somebody weaves its nodes: any thread may, with the ticket, and
/// [`finish`](Handle::finish) does it.
///
/// No call can leave the store half changed. A lock that a panic has poisoned is therefore simply taken.
///
/// ```
/// use pit_host::{Limits, Shared, Store};
/// # fn main() -> Result<(), pit_host::Error> {
/// let shared = Shared::new(Store::format(Limits::new(16, 4, 8, 2))?);
/// let drone = shared.clone();
/// let ticket = std::thread::spawn(move || drone.begin(1)).join().unwrap()?;
/// shared.put(ticket, 0, &[7; 16])?;
/// # Ok(())
/// # }
/// ```
pub struct Handle<L: Log> {
    pub(crate) core: Arc<Core>,
    pub(crate) log: Arc<L>,
}

/// A store in memory that threads share.
pub type Shared = Handle<Memory>;

impl<L: Log> Handle<L> {
    /// One call, committed by itself.
    fn alone<T>(
        &self,
        call: impl FnOnce(&mut Writer<'_, L>) -> Result<T, Error>,
    ) -> Result<T, L::Failure> {
        let mut writer = self.writer()?;
        let answer = call(&mut writer)?;
        writer.commit()?;
        Ok(answer)
    }

    /// [`Store::begin`](crate::Store::begin).
    pub fn begin(&self, n: u64) -> Result<Ticket, L::Failure> {
        self.alone(|writer| writer.begin(n))
    }

    /// [`Store::put`](crate::Store::put).
    pub fn put(&self, ticket: Ticket, i: u64, bytes: &[u8]) -> Result<(), L::Failure> {
        self.alone(|writer| writer.put(ticket, i, bytes))
    }

    /// [`Store::write`](crate::Store::write).
    pub fn write(
        &self,
        line: Line,
        ticket: Ticket,
        first: PageIndex,
    ) -> Result<Assigned, L::Failure> {
        self.alone(|writer| writer.assign(line, ticket, Some(first)))
    }

    /// [`Store::append`](crate::Store::append).
    pub fn append(&self, line: Line, ticket: Ticket) -> Result<Assigned, L::Failure> {
        self.alone(|writer| writer.assign(line, ticket, None))
    }

    /// [`Store::weave`](crate::Store::weave).
    ///
    /// In a store that was [rebuilt](Handle::rebuild), the versions of a node are the store's own numbers.
    pub fn weave(&self, ticket: Ticket) -> Result<Node, L::Failure> {
        self.alone(|writer| writer.weave(ticket, 1))
    }

    /// [`Store::publish`](crate::Store::publish). When it returns, the version is published for every reader.
    pub fn publish(&self, line: Line, minute: Minute) -> Result<Published, L::Failure> {
        self.alone(|writer| writer.publish(line, minute))
    }

    /// [`Store::set_windows`](crate::Store::set_windows), for every handle: whoever publishes after it goes by the new ones.
    pub fn set_windows(&self, text: impl AsRef<[u8]>) -> Result<(), L::WindowsFailure> {
        let mut writer = self.writer()?;
        writer.set_windows(text.as_ref())?;
        Ok(writer.commit()?)
    }

    /// [`Store::windows`](crate::Store::windows).
    pub fn windows(&self) -> Windows {
        self.core.reading().store().windows()
    }

    /// The limits that the store was formatted with.
    pub fn limits(&self) -> Limits {
        self.core.reading().store().limits()
    }

    /// [`Store::branch`](crate::Store::branch).
    pub fn branch(&self, line: Line, version: Version) -> Result<Line, L::Failure> {
        self.alone(|writer| writer.branch(line, version))
    }

    /// [`Store::read`](crate::Store::read). One of two pages' bytes and more is copied without the lock.
    pub fn read(
        &self,
        line: Line,
        version: Version,
        offset: ByteOffset,
        buffer: &mut [u8],
    ) -> Result<(), Error> {
        self.core.read(line, version, offset, buffer)
    }

    /// [`Store::read_front`](crate::Store::read_front): the proved READ itself, with a length of its own.
    pub fn read_front(
        &self,
        line: Line,
        version: Version,
        offset: ByteOffset,
        len: u64,
        buffer: &mut [u8],
    ) -> Result<(), Error> {
        let instance = self.core.reading();
        let own = self.core.own(&instance, line, version)?;
        instance.store().read_front(line, own, offset, len, buffer)
    }

    /// [`Store::size`](crate::Store::size).
    pub fn size(&self, line: Line, version: Version) -> Result<u64, Error> {
        self.core.size_in(&self.core.reading(), line, version)
    }

    /// [`Store::recent`](crate::Store::recent); it takes no lock.
    pub fn recent(&self, line: Line) -> Result<Version, Error> {
        self.core.recent(line)
    }

    /// The published versions of a line that can be read, lowest first: all from 1 to [`recent`](Handle::recent), but where the store was
    /// [rebuilt](Handle::rebuild) and some were not kept. Refused: 3, 20.
    ///
    /// ```
    /// use pit_host::{Limits, Line, PageIndex, Shared, Store, Version};
    /// # fn main() -> Result<(), pit_host::Error> {
    /// let (shared, live) = (Shared::new(Store::format(Limits::new(16, 8, 16, 4))?), Line(0));
    /// for fill in 1..=3 {
    ///     shared.update(live, PageIndex(0), &[&[fill; 16]])?;
    /// }
    /// assert_eq!(shared.versions(live)?, [1, 2, 3].map(Version));
    /// shared.rebuild(shared.limits(), &[(live, Version(1))])?;
    /// assert_eq!(shared.versions(live)?, [1, 3].map(Version));
    /// # Ok(())
    /// # }
    /// ```
    pub fn versions(&self, line: Line) -> Result<Vec<Version>, Error> {
        let instance = self.core.reading();
        let last = self.core.recent_in(&instance, line)?;
        let own = instance.store().recent(line)?;
        let kept = (1..=own.0).filter_map(|own| instance.numbers.kept_version(line, own));
        Ok(kept.take_while(|version| *version <= last).collect())
    }

    /// [`Store::stamp`](crate::Store::stamp).
    ///
    /// In a store that was [rebuilt](Handle::rebuild), a page that has not changed since has for its stamp the last version kept that is
    /// not above the one asked for.
    pub fn stamp(&self, line: Line, version: Version, page: PageIndex) -> Result<Version, Error> {
        let instance = self.core.reading();
        self.core.stamp_in(&instance, line, version, page)
    }

    /// [`Store::view`](crate::Store::view), for as long as `look` takes: the bytes of a page where they lie, uncopied.
    ///
    /// Writers wait while `look` runs, and readers that come after them, so it should be short; and it must not call this store, since
    /// a call that waits for a writer that waits for `look` would never end. A panic in `look` harms nobody else. A
    /// [`Snapshot`](crate::Snapshot) gives the bytes without a lock.
    ///
    /// ```
    /// # use pit_host::{Limits, Line, Minute, PageIndex, Shared, Store, Version};
    /// # let mut store = Store::format(Limits::new(16, 4, 8, 2)).unwrap();
    /// # let ticket = store.begin(1).unwrap();
    /// # store.put(ticket, 0, &[7; 16]).unwrap();
    /// # store.append(Line(0), ticket).unwrap();
    /// # store.weave(ticket).unwrap();
    /// # store.publish(Line(0), Minute(0)).unwrap();
    /// let shared = Shared::new(store);
    /// let highest = |bytes: &[u8]| bytes.iter().max().copied();
    /// let highest = shared.with_view(Line(0), Version(1), PageIndex(0), highest);
    /// assert_eq!(highest, Ok(Some(7)));
    /// ```
    pub fn with_view<R>(
        &self,
        line: Line,
        version: Version,
        page: PageIndex,
        look: impl FnOnce(&[u8]) -> R,
    ) -> Result<R, Error> {
        self.core.with_view(line, version, page, look)
    }

    /// Sets the clock of the site, for every handle: the minute of the week at which [`update`](Handle::update) and the like publish.
    /// Before, it is [`Minute::of`] the system's time in UTC.
    pub fn set_clock(&self, clock: impl Fn() -> Minute + Send + Sync + 'static) {
        self.core.set_clock(Arc::new(clock));
    }

    /// The whole store as it is at one moment of this call, copied. The lock is held while all but the pages are copied. Where it was
    /// [rebuilt](Handle::rebuild), the copy goes by its own numbers, and says nothing of its callers'. Of a store in a folder it has also
    /// what is not yet kept there, or could not be.
    pub fn to_store(&self) -> Store {
        let instance = self.core.reading();
        if let Some(copied) = instance.copied() {
            return copied;
        }
        let image = instance.image();
        drop(instance);
        image.to_store().expect("FORMAT accepts the limits")
    }

    /// [`Store::save`](crate::Store::save) of the store as it is at one moment of this call; gives the last published
    /// version of line 0 that the file holds.
    ///
    /// It holds nobody up: the lock is taken while the state, the nodes and the register are copied, a millisecond or two for
    /// the largest store. Pages that are put never change, so they are written from where they lie, without a lock.
    ///
    /// Of a store in a folder, all that the file will hold is synced there first: a file never has a version that a power cut takes from the
    /// folder. Where the journal has failed before it had all of that, nothing is saved; [`to_store`](Handle::to_store) gives what there is.
    ///
    /// One thread saves at a time, and others that save wait for it. So what a finished save has left is never replaced by
    /// an older one.
    pub fn save(&self, path: impl AsRef<Path>) -> Result<Version, FileError> {
        if self.log.check_process().is_err() {
            return Err(FileError::OtherProcess); // before a lock is waited for
        }
        let _alone = self.core.saving();
        let (image, journal) = {
            // so that the one is of the other, also where a folder is opened anew
            let _writer = (!L::AT_ONCE).then(|| self.core.writer_lock());
            (self.core.image(), self.log.journal())
        };
        self.log.settle(&journal)?;
        image.save(path.as_ref())
    }
}

impl Shared {
    /// A handle on this store.
    pub fn new(store: Store) -> Shared {
        Shared::numbered(store, Numbering::default())
    }

    /// A handle on this store, with its callers' numbers.
    pub(crate) fn numbered(store: Store, numbers: Numbering) -> Shared {
        Handle {
            core: Arc::new(Core::new(store, numbers)),
            log: Arc::new(Memory),
        }
    }

    /// A handle on the store in a file, as [`Store::load`] loads it; with its callers' numbers, where it was
    /// [rebuilt](Handle::rebuild).
    pub fn load(path: impl AsRef<Path>) -> Result<Shared, FileError> {
        let (store, numbers) = file::load(path.as_ref())?.numbered()?;
        Ok(Shared::numbered(store, numbers))
    }

    /// Takes the store in a file in place of the running one. The file is read and checked first, without the lock; on
    /// an error the running store goes on as it was. Tickets and versions are then those of the file's store.
    pub fn reload(&self, path: impl AsRef<Path>) -> Result<(), FileError> {
        let (store, numbers) = file::load(path.as_ref())?.numbered()?;
        let instance = Instance::new(store, numbers);
        let writer = self.core.writer_lock(); // no rebuild is on its way, which would put the former store in place again
        self.core.replace(instance, writer);
        Ok(())
    }
}

impl<L: Log> Clone for Handle<L> {
    fn clone(&self) -> Handle<L> {
        Handle {
            core: self.core.clone(),
            log: self.log.clone(),
        }
    }
}

/// By the store's state: its areas fill screens.
impl<L: Log> fmt::Debug for Handle<L> {
    fn fmt(&self, f: &mut fmt::Formatter<'_>) -> fmt::Result {
        let state = self.core.reading().store().state();
        f.debug_struct("Handle").field("state", &state).finish()
    }
}
