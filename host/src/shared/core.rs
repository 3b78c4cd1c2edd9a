//! The store behind its locks, as every handle and every snapshot has it.

use crate::calls::counters::{ByteOffset, Line, Minute, PageIndex, Version};
use crate::calls::error::Error;
use crate::calls::store::Store;
use crate::shared::image::Image;
use crate::shared::instance::Instance;
use crate::shared::numbering::Numbering;
use crate::shared::visible::Visible;
use std::hint::spin_loop;
use std::sync::atomic::{AtomicUsize, Ordering::Relaxed};
use std::sync::{
    Arc, Mutex, MutexGuard, PoisonError, RwLock, RwLockReadGuard, RwLockWriteGuard, TryLockError,
};
use std::time::SystemTime;

/// What every handle, and every snapshot, has of the store.
pub struct Core {
    instance: RwLock<Instance>,
    pub visible: Visible,
    /// The minute of the week at which an update is published that was not given one.
    clock: RwLock<Clock>,
    /// Held by the one writer: who waits for it keeps no reader waiting.
    writers: Mutex<()>,
    /// Held by the one that saves to a file.
    saving: Mutex<()>,
    /// Held by the one that has the store kept anew: by a checkpoint, or rebuilt.
    keeping: Mutex<()>,
    /// So many readers wait for a writer's call to end. The next writer lets them go first.
    waiting: AtomicUsize,
}

/// A reader that finds a writer's call running looks again so often before it sleeps: some 20 microseconds. To be woken takes longer
/// than most calls.
const LOOKS: usize = 400;
/// A writer that finds readers waiting looks so often whether they have gone: at most some microseconds.
const LOOKS_OF_A_WRITER: usize = 64;

/// Gives the minute of the week.
pub type Clock = Arc<dyn Fn() -> Minute + Send + Sync>;

impl Core {
    pub fn new(store: Store, numbers: Numbering) -> Core {
        let instance = Instance::new(store, numbers);
        let visible = Visible::default();
        visible.set(instance.published().into_iter());
        Core {
            instance: RwLock::new(instance),
            visible,
            clock: RwLock::new(Arc::new(|| Minute::of(SystemTime::now(), 0))),
            writers: Mutex::new(()),
            saving: Mutex::new(()),
            keeping: Mutex::new(()),
            waiting: AtomicUsize::new(0),
        }
    }

    /// Every other writer waits until this is given back.
    pub fn writer_lock(&self) -> MutexGuard<'_, ()> {
        self.writers.lock().unwrap_or_else(PoisonError::into_inner)
    }

    #[inline]
    pub fn reading(&self) -> RwLockReadGuard<'_, Instance> {
        let now = self.try_reading();
        now.unwrap_or_else(|| self.reading_after_a_writer())
    }

    #[inline]
    fn try_reading(&self) -> Option<RwLockReadGuard<'_, Instance>> {
        match self.instance.try_read() {
            Ok(instance) => Some(instance),
            Err(TryLockError::Poisoned(instance)) => Some(instance.into_inner()),
            Err(TryLockError::WouldBlock) => None,
        }
    }

    #[cold]
    fn reading_after_a_writer(&self) -> RwLockReadGuard<'_, Instance> {
        self.waiting.fetch_add(1, Relaxed);
        let soon = (0..LOOKS).find_map(|_| {
            spin_loop();
            self.try_reading()
        });
        let later = || self.instance.read().unwrap_or_else(PoisonError::into_inner);
        let instance = soon.unwrap_or_else(later);
        self.waiting.fetch_sub(1, Relaxed);
        instance
    }

    /// Readers that wait already go first: else a writer that makes one call after the other would hardly ever let them in.
    pub fn writing(&self) -> RwLockWriteGuard<'_, Instance> {
        let is_awaited = |_: &usize| self.waiting.load(Relaxed) > 0;
        let looks = (0..LOOKS_OF_A_WRITER).take_while(is_awaited);
        looks.for_each(|_| spin_loop());
        self.instance
            .write()
            .unwrap_or_else(PoisonError::into_inner)
    }

    pub fn set_clock(&self, clock: Clock) {
        let mut place = self.clock.write().unwrap_or_else(PoisonError::into_inner);
        let former = std::mem::replace(&mut *place, clock);
        drop(place);
        drop(former); // after the lock: it may hold a handle
    }

    /// Everybody who saves waits for this one.
    pub fn saving(&self) -> MutexGuard<'_, ()> {
        self.saving.lock().unwrap_or_else(PoisonError::into_inner)
    }

    /// Everybody who has the store kept anew waits for this one.
    pub fn keeping(&self) -> MutexGuard<'_, ()> {
        self.keeping.lock().unwrap_or_else(PoisonError::into_inner)
    }

    /// The minute by the site's clock, which is asked without a lock. Refused: 22.
    pub fn minute(&self) -> Result<Minute, Error> {
        let clock = {
            let place = self.clock.read().unwrap_or_else(PoisonError::into_inner);
            Arc::clone(&place)
        };
        let minute = clock();
        if minute.is_of_week() {
            Ok(minute)
        } else {
            Err(Error::NoSuchMinute)
        }
    }

    /// Another store takes this one's place, for all handles. Called by the one writer, whose lock ends with it.
    pub fn replace(&self, instance: Instance, writer: MutexGuard<'_, ()>) {
        let mut place = self.writing();
        place.epoch.end();
        self.visible.set(instance.published().into_iter());
        let former = std::mem::replace(&mut *place, instance);
        drop((place, writer));
        self.visible.notify();
        drop(former); // after the locks
    }

    /// The store as it is at one moment of this call. The lock is held while all but the pages are copied.
    pub fn image(&self) -> Image {
        self.reading().image()
    }

    /// The store's own number of a version that readers may see.
    pub fn own(&self, instance: &Instance, line: Line, version: Version) -> Result<Version, Error> {
        let own = Version(instance.numbers.own_version(line, version));
        match self.visible.last(line) {
            Some(last) if version <= last => Ok(own),
            Some(_) => Err(Error::NotPublished),
            // as the store refuses a line that has not begun; one that has is shown when its entry is kept
            None => instance.store().size(line, own).and(Err(Error::NoSuchLine)),
        }
    }

    pub fn read(
        &self,
        line: Line,
        version: Version,
        offset: ByteOffset,
        buffer: &mut [u8],
    ) -> Result<(), Error> {
        self.read_by(self.reading(), line, version, offset, buffer)
    }

    /// READ by a lock that is held. Of many pages only where they lie is looked up under it: they are copied without.
    pub fn read_by(
        &self,
        instance: RwLockReadGuard<'_, Instance>,
        line: Line,
        version: Version,
        offset: ByteOffset,
        buffer: &mut [u8],
    ) -> Result<(), Error> {
        let own = self.own(&instance, line, version)?;
        let (store, pages) = (instance.store(), &instance.epoch.pages);
        if let Some(()) = store.read_in_page(line, own, offset, buffer) {
            return Ok(());
        }
        let numbers = store.numbers_of_many(line, own, offset, buffer.len());
        let are_put = |numbers: &Vec<u64>| numbers.iter().all(|number| pages.is_put(*number));
        match numbers.filter(are_put) {
            Some(numbers) => {
                let epoch = Arc::clone(&instance.epoch);
                drop(instance);
                let skip = offset.0 as usize % epoch.pages.page_size();
                let read = epoch.pages.read(numbers, skip, buffer);
                read.ok_or(Error::Damaged)
            }
            None => store.read_front(line, own, offset, buffer.len() as u64, buffer),
        }
    }

    pub fn size_in(&self, instance: &Instance, line: Line, version: Version) -> Result<u64, Error> {
        let own = self.own(instance, line, version)?;
        instance.store().size(line, own)
    }

    pub fn recent(&self, line: Line) -> Result<Version, Error> {
        match self.visible.last(line) {
            Some(last) => Ok(last),
            None => self.recent_in(&self.reading(), line),
        }
    }

    pub fn recent_in(&self, instance: &Instance, line: Line) -> Result<Version, Error> {
        let unseen = || instance.store().recent(line).and(Err(Error::NoSuchLine));
        self.visible.last(line).map_or_else(unseen, Ok)
    }

    pub fn stamp_in(
        &self,
        instance: &Instance,
        line: Line,
        version: Version,
        page: PageIndex,
    ) -> Result<Version, Error> {
        let own = self.own(instance, line, version)?;
        let stamp = instance.store().stamp(line, own, page)?;
        Ok(instance.numbers.stamp(line, version, stamp.0))
    }

    pub fn with_view<R>(
        &self,
        line: Line,
        version: Version,
        page: PageIndex,
        look: impl FnOnce(&[u8]) -> R,
    ) -> Result<R, Error> {
        let instance = self.reading();
        let own = self.own(&instance, line, version)?;
        instance.store().view(line, own, page).map(look)
    }

    /// The number of a page of a version.
    pub fn page_number(
        &self,
        instance: &Instance,
        line: Line,
        version: Version,
        page: PageIndex,
    ) -> Result<u64, Error> {
        let own = self.own(instance, line, version)?;
        let (begin, length) = instance.store().view_place(line, own, page)?;
        let number = (begin as u64).checked_div(length as u64);
        number
            .filter(|number| instance.epoch.pages.is_put(*number))
            .ok_or(Error::Damaged)
    }
}

#[cfg(test)]
mod tests {
    use super::*;
    use crate::calls::areas::Limits;
    use crate::calls::counters::Ticket;
    use crate::shared::Shared;

    #[test]
    fn a_poisoned_lock_is_taken() {
        let limits = Limits::new(16, 4, 8, 2);
        let shared = Shared::new(Store::format(limits).expect("limits in range"));
        let other = shared.clone();
        let died = std::thread::spawn(move || {
            let _alone = other.core.writing();
            panic!("with the lock held");
        });
        assert!(died.join().is_err() && shared.core.instance.is_poisoned());
        assert_eq!(shared.begin(1), Ok(Ticket(1)));
        assert_eq!(shared.recent(Line(0)), Ok(Version(0)));
    }
}
