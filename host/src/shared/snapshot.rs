//! A published version, held for reading.

use crate::calls::counters::{ByteOffset, Line, PageIndex, Version};
use crate::calls::error::Error;
use crate::shared::epoch::{Change, Epoch};
use crate::shared::instance::Instance;
use crate::shared::log::Log;
use crate::shared::page_area::PageArea;
use crate::shared::{Core, Handle};
use std::fmt;
use std::sync::{Arc, RwLockReadGuard};

/// A published version of a line, held for reading.
///
/// A reader that looks often has it [`filled`](Snapshot::filled): then it knows where each page lies, and [`view`](Snapshot::view),
/// [`read`](Snapshot::read) and [`advance`](Snapshot::advance) take no lock at all: pages that are put never change, and a new version's
/// pages are noted down where every reader finds them. Without that, each looks the page up in the store, under the readers' lock,
/// which is given back before the bytes are handed out.
///
/// The bytes stay as long as the snapshot, also where another store takes the place of this one by
/// [`rebuild`](Handle::rebuild) or [`reload`](crate::Shared::reload). One that is not filled is then refused, with 16, until it advances.
///
/// ```
/// use pit_host::{Limits, Line, PageIndex, Shared, Store, Version};
/// # fn main() -> Result<(), pit_host::Error> {
/// let shared = Shared::new(Store::format(Limits::new(16, 8, 16, 4))?);
/// let live = Line(0);
/// shared.append_pages(live, &[&[1; 16], &[2; 16]])?;
///
/// let mut truck = shared.snapshot(live, Version(1))?.filled()?;
/// assert_eq!(truck.view(PageIndex(1))?, [2; 16]);
/// shared.update(live, PageIndex(1), &[&[3; 16]])?; // no reader of version 1 sees anything of it
/// assert_eq!(truck.view(PageIndex(1))?, [2; 16]);
///
/// let before = truck.clone();
/// assert!(truck.advance()?); // to version 2
/// assert_eq!(truck.view(PageIndex(1))?, [3; 16]);
/// assert_eq!(truck.changed(&before)?, [PageIndex(1)]);
/// # Ok(())
/// # }
/// ```
#[derive(Clone)]
pub struct Snapshot {
    core: Arc<Core>,
    epoch: Arc<Epoch>,
    line: Line,
    version: Version,
    /// In pages.
    size: u64,
    filled: Option<Filled>,
}

/// Where each page lies.
#[derive(Clone)]
struct Filled {
    /// The number of each page.
    numbers: Vec<u16>,
    /// So many updates of the store, over all lines, are gone through.
    gone_through: usize,
    /// What callers add to the store's own version numbers.
    shift: u64,
}

impl<L: Log> Handle<L> {
    /// A published version of a line, to be read. Refused: 3, 20, 16, 19.
    pub fn snapshot(&self, line: Line, version: Version) -> Result<Snapshot, Error> {
        Snapshot::new(&self.core, &self.core.reading(), line, version)
    }
}

impl Snapshot {
    fn new(
        core: &Arc<Core>,
        instance: &Instance,
        line: Line,
        version: Version,
    ) -> Result<Snapshot, Error> {
        let bytes = core.size_in(instance, line, version)?;
        let page = instance.epoch.pages.page_size() as u64;
        Ok(Snapshot {
            core: core.clone(),
            epoch: instance.epoch.clone(),
            line,
            version,
            size: bytes / page,
            filled: None,
        })
    }

    /// The line.
    pub fn line(&self) -> Line {
        self.line
    }

    /// The version.
    pub fn version(&self) -> Version {
        self.version
    }

    /// How many pages it has.
    pub fn pages(&self) -> u64 {
        self.size
    }

    /// Its size in bytes.
    pub fn size(&self) -> u64 {
        self.size * self.epoch.pages.page_size() as u64
    }

    /// The same, with where each page lies: all looked up at once, under one lock. Refused: 16, 19.
    pub fn filled(mut self) -> Result<Snapshot, Error> {
        if self.filled.is_none() {
            let filled = self.fill(&*self.reading()?)?;
            self.filled = Some(filled);
        }
        Ok(self)
    }

    fn fill(&self, instance: &Instance) -> Result<Filled, Error> {
        let number = |page| {
            let number = self.number_in(instance, PageIndex(page))?;
            u16::try_from(number).map_err(|_| Error::Damaged)
        };
        let numbers = (0..self.size).map(number).collect::<Result<_, _>>()?;
        let shift = instance.numbers.shift(self.line);
        let own = instance.numbers.own_version(self.line, self.version);
        let is_later = |change: Change| change.line == self.line.0 && change.version > own;
        let mut updates = (0..).map_while(|at| self.epoch.change(at));
        let gone_through = updates.position(is_later);
        Ok(Filled {
            numbers,
            gone_through: gone_through.unwrap_or(instance.store().state().assigned as usize),
            shift,
        })
    }

    /// The readers' lock, where the store is still the one that this is a version of.
    fn reading(&self) -> Result<RwLockReadGuard<'_, Instance>, Error> {
        let instance = self.core.reading();
        if !Arc::ptr_eq(&instance.epoch, &self.epoch) {
            return Err(Error::NotPublished);
        }
        Ok(instance)
    }

    fn number_in(&self, instance: &Instance, page: PageIndex) -> Result<u64, Error> {
        self.core
            .page_number(instance, self.line, self.version, page)
    }

    /// The number of a page.
    #[inline]
    fn number(&self, page: PageIndex) -> Result<u64, Error> {
        match &self.filled {
            Some(filled) => {
                let at = usize::try_from(page.0).unwrap_or(usize::MAX);
                let number = filled.numbers.get(at).ok_or(Error::OutsideSnapshot)?;
                Ok((*number).into())
            }
            None => self.looked_up(page),
        }
    }

    /// The number of a page, from the store. It stands by itself so that a filled snapshot's view is short enough to be inlined.
    #[inline(never)]
    fn looked_up(&self, page: PageIndex) -> Result<u64, Error> {
        self.number_in(&*self.reading()?, page)
    }

    /// VIEW: the bytes of a page, where they lie. Refused: 17; where it is not filled also 16 and 19.
    #[inline]
    pub fn view(&self, page: PageIndex) -> Result<&[u8], Error> {
        let number = self.number(page)?;
        self.epoch.pages.page(number).ok_or(Error::Damaged)
    }

    /// READ: fills the buffer from a byte on. Refused, it stays as it was: 17; where it is not filled also 16 and 19.
    pub fn read(&self, offset: ByteOffset, buffer: &mut [u8]) -> Result<(), Error> {
        let filled = match &self.filled {
            Some(filled) => filled,
            None => {
                let (instance, core) = (self.reading()?, &self.core);
                return core.read_by(instance, self.line, self.version, offset, buffer);
            }
        };
        let end = offset.0.checked_add(buffer.len() as u64);
        if end.map_or(true, |end| end > self.size()) {
            return Err(Error::OutsideSnapshot);
        }
        let page = self.epoch.pages.page_size() as u64;
        let from = filled.numbers.iter().skip((offset.0 / page) as usize);
        let numbers = from.map(|number| u64::from(*number));
        let read = self
            .epoch
            .pages
            .read(numbers, (offset.0 % page) as usize, buffer);
        read.ok_or(Error::Damaged)
    }

    /// Goes on to the last version that is published on its line; tells whether that is another one, or one of another store that has
    /// taken the place of its own. Filled, it stays so, and takes no lock, but where the line's versions are those of the line that it
    /// began from. Refused: 20, 19.
    pub fn advance(&mut self) -> Result<bool, Error> {
        let newest = self.core.recent(self.line)?;
        let ended = self.epoch.has_ended();
        if newest == self.version && !ended {
            return Ok(false);
        }
        let before = self.version;
        if !ended && self.go_on(newest) {
            return Ok(true);
        }
        let later = self.newest()?;
        let is_another = later.version != before || !Arc::ptr_eq(&later.epoch, &self.epoch);
        *self = later;
        Ok(is_another)
    }

    /// The last version that is published on its line, all looked up under one lock: so it is one of the store that is there then.
    fn newest(&self) -> Result<Snapshot, Error> {
        let instance = self.core.reading();
        let newest = self.core.recent_in(&instance, self.line)?;
        let mut snapshot = Snapshot::new(&self.core, &instance, self.line, newest)?;
        if self.filled.is_some() {
            snapshot.filled = Some(snapshot.fill(&instance)?);
        }
        Ok(snapshot)
    }

    /// Takes in what the updates up to a later version changed, where all of that is noted down. Where it is not, it is the version that it
    /// came to.
    fn go_on(&mut self, newest: Version) -> bool {
        let (line, epoch) = (self.line.0, &self.epoch);
        let filled = match &mut self.filled {
            Some(filled) => filled,
            None => return false,
        };
        while self.version < newest {
            let change = match epoch.change(filled.gone_through) {
                Some(change) => change,
                None => return false,
            };
            if change.line == line {
                let is_next = change.version + filled.shift == self.version.0 + 1;
                if !is_next || !filled.take_in(change, &epoch.pages) {
                    return false;
                }
                self.version.0 += 1;
                self.size = filled.numbers.len() as u64;
            }
            filled.gone_through += 1;
        }
        self.version == newest
    }

    /// The pages that a truck with the other version has to fetch to have this one: those that the other does not have, and those
    /// that were changed between the two, by their stamps (also where they were changed back). Of versions on two lines, or of a store whose
    /// place another one has taken, those whose bytes differ. Refused: 16, 19.
    pub fn changed(&self, other: &Snapshot) -> Result<Vec<PageIndex>, Error> {
        let (mine, others) = (self.clone().filled()?, other.clone().filled()?);
        let one_store = Arc::ptr_eq(&self.epoch, &other.epoch);
        let by_stamps = one_store && self.line == other.line;
        let (older, newer) = (
            self.version.min(other.version),
            self.version.max(other.version),
        );
        let is_changed = |page: PageIndex| -> Result<bool, Error> {
            if page.0 >= others.size {
                return Ok(true);
            }
            if one_store && mine.number(page)? == others.number(page)? {
                return Ok(false);
            }
            match by_stamps.then(|| self.reading()) {
                Some(Ok(instance)) => {
                    Ok(self.core.stamp_in(&instance, self.line, newer, page)? > older)
                }
                _ => Ok(mine.view(page)? != others.view(page)?),
            }
        };
        let mut changed = Vec::new();
        for page in (0..self.size).map(PageIndex) {
            if is_changed(page)? {
                changed.push(page);
            }
        }
        Ok(changed)
    }
}

impl Filled {
    /// Takes in what one update changed. Tells whether it could: its pages are put, and there are no others missing before them, in every
    /// store that calls left.
    fn take_in(&mut self, change: Change, pages: &PageArea) -> bool {
        let numbers = change.number..change.number + change.pages;
        let first = change.first as usize;
        let end = first + change.pages as usize;
        if first > self.numbers.len() || !numbers.clone().all(|number| pages.is_put(number)) {
            return false;
        }
        if self.numbers.len() < end {
            self.numbers.resize(end, 0);
        }
        for (place, number) in self.numbers[first..end].iter_mut().zip(numbers) {
            *place = number as u16; // within 16 bits, as the change is noted
        }
        true
    }
}

impl fmt::Debug for Snapshot {
    fn fmt(&self, f: &mut fmt::Formatter<'_>) -> fmt::Result {
        f.debug_struct("Snapshot")
            .field("line", &self.line)
            .field("version", &self.version)
            .field("pages", &self.size)
            .field("filled", &self.filled.is_some())
            .finish()
    }
}

#[cfg(test)]
mod tests {
    use super::*;
    use crate::calls::areas::Limits;
    use crate::calls::store::Store;
    use crate::shared::Shared;
    use std::sync::mpsc::channel;
    use std::thread;
    use std::time::Duration;

    /// A store of so many versions, each of two pages that are filled with its number.
    fn of_versions(versions: u8) -> Shared {
        let limits = Limits::new(16, 40, 80, 10);
        let shared = Shared::new(Store::format(limits).expect("limits in range"));
        (1..=versions).for_each(|version| update(&shared, version));
        shared
    }

    fn update(shared: &Shared, version: u8) {
        let page = [version; 16];
        let done = shared.update(Line(0), PageIndex(0), &[&page, &page]);
        assert_eq!(done, Ok(Version(version.into())));
    }

    /// While somebody holds the store's lock for himself alone.
    #[test]
    fn a_filled_snapshot_takes_no_lock() {
        let shared = of_versions(2);
        let snapshot = shared.snapshot(Line(0), Version(1)).expect("published");
        let mut snapshot = snapshot.filled().expect("published");
        (3..=4).for_each(|version| update(&shared, version));

        let alone = shared.core.writing();
        let (sender, sent) = channel();
        thread::spawn(move || {
            let (mut bytes, before) = ([0; 32], snapshot.clone());
            let advanced = snapshot.advance();
            let read = snapshot.read(ByteOffset(0), &mut bytes);
            let views = [before.view(PageIndex(1)), snapshot.view(PageIndex(1))];
            let views = views.map(|view| view.map(<[u8]>::to_vec));
            let _ = sender.send((advanced, read, bytes, views)); // if somebody still listens
        });
        let told = sent.recv_timeout(Duration::from_secs(10));
        drop(alone);
        let views = [Ok(vec![1; 16]), Ok(vec![4; 16])];
        assert_eq!(told, Ok((Ok(true), Ok(()), [4; 32], views)));
    }

    /// Another store takes the place of this one while somebody advances, and its newest version has the number that he has already: he is
    /// told that it is another.
    #[test]
    fn a_snapshot_that_goes_on_in_another_store_says_so() {
        let (shared, later) = (of_versions(2), of_versions(0));
        let done = later.update(Line(0), PageIndex(0), &[&[9; 16]]);
        assert_eq!(done, Ok(Version(1)));
        let mut snapshot = shared.snapshot(Line(0), Version(1)).expect("published");
        let mut place = shared.core.writing();
        let advancing = thread::spawn(move || {
            let advanced = snapshot.advance();
            (advanced, snapshot.view(PageIndex(0)).map(<[u8]>::to_vec))
        });
        thread::sleep(Duration::from_millis(10)); // most often it waits for the lock by then
        place.epoch.end();
        shared.core.visible.set(std::iter::once(Version(1)));
        std::mem::swap(&mut *place, &mut *later.core.writing());
        drop(place);
        let told = advancing.join().expect("no complaint");
        assert_eq!(told, (Ok(true), Ok(vec![9; 16])));
    }

    /// A version is published and the store rebuilt without the one before it, while somebody advances: whether he has seen what was
    /// published before or not, he goes on to what is there.
    #[test]
    fn a_snapshot_advances_beside_a_rebuild() {
        for is_filled in [false, true] {
            let (shared, later) = (of_versions(2), of_versions(3));
            later.rebuild(later.limits(), &[]).expect("room");
            let mut snapshot = shared.snapshot(Line(0), Version(1)).expect("published");
            if is_filled {
                snapshot = snapshot.filled().expect("published");
            }
            let mut place = shared.core.writing();
            let advancing = thread::spawn(move || (snapshot.advance(), snapshot.version()));
            thread::sleep(Duration::from_millis(10));
            place.epoch.end();
            shared.core.visible.set(std::iter::once(Version(3)));
            std::mem::swap(&mut *place, &mut *later.core.writing());
            drop(place);
            let (advanced, version) = advancing.join().expect("no complaint");
            assert_eq!(advanced, Ok(true));
            assert!(version == Version(3) || is_filled, "{version}");
        }
    }
}
