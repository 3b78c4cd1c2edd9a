//! The limits of a store, and what planned updates ask of them.

use super::limits_error::{Capacity, LimitsError, WrongUpdate};
use super::PartsMut;
use crate::calls::counters::PageIndex;
use crate::calls::error::Error;
use crate::calls::ffi::{self, State};

/// A blob has at most this many pages.
pub(crate) const MOST_PAGES: u64 = 4_096;
/// An update has at most this many pages.
pub(crate) const MOST_OF_UPDATE: u64 = 64;

/// The limits of a store: its page size in bytes, and how many pages, nodes and updates it can ever hold.
///
/// FORMAT accepts a page size that is a power of two from 16 to 4,096, and capacities of 1 to 65,535 pages,
/// 1 to 131,072 nodes and 1 to 4,096 updates.
///
/// Later stores may have more limits, so a caller makes one by [`Limits::new`] and sets fields, and never by a literal:
///
/// ```compile_fail,E0639
/// use pit_host::Limits;
/// let limits = Limits { page_size: 16, pages: 4, nodes: 8, updates: 2 };
/// ```
#[derive(Clone, Copy, Debug, PartialEq, Eq, Hash)]
#[non_exhaustive]
pub struct Limits {
    /// The page size in bytes.
    pub page_size: u64,
    /// How many pages there is room for, over all updates.
    pub pages: u64,
    /// How many tree nodes there is room for, over all updates.
    pub nodes: u64,
    /// How many updates there is room for.
    pub updates: u64,
}

/// An update that is planned: of `pages` pages from page `first` on, where the blob has `size_after` pages after it.
#[derive(Clone, Copy, Debug, PartialEq, Eq, Hash)]
#[non_exhaustive]
pub struct Planned {
    /// The update's first page.
    pub first: PageIndex,
    /// How many pages it has.
    pub pages: u64,
    /// The blob's size in pages after it.
    pub size_after: u64,
}

impl State {
    /// The limits that the store was formatted with.
    pub fn limits(&self) -> Limits {
        Limits::new(self.size, self.pages, self.nodes, self.updates)
    }
}

impl Limits {
    /// These limits, in the order of FORMAT's fields. Whether FORMAT accepts them, [`check`](Limits::check) says, and
    /// [`explain`](Limits::explain) why it does not.
    ///
    /// ```
    /// use pit_host::Limits;
    /// let mut limits = Limits::new(16, 4, 8, 2);
    /// limits.updates = 3;
    /// assert_eq!((limits.page_size, limits.pages, limits.nodes, limits.updates), (16, 4, 8, 3));
    /// ```
    pub fn new(page_size: u64, pages: u64, nodes: u64, updates: u64) -> Limits {
        Limits {
            page_size,
            pages,
            nodes,
            updates,
        }
    }

    /// Just enough for the planned updates. Refused where no store takes one of them, or where FORMAT would not accept what
    /// they need together; the [`LimitsError`] says which, and why.
    ///
    /// ```
    /// use pit_host::{Limits, LimitsError, PageIndex, Planned};
    /// # fn main() -> Result<(), LimitsError> {
    /// let planned = [(0, 4, 4), (1, 2, 4), (4, 1, 5)];
    /// let mut planned = planned.map(|(first, pages, size_after)| Planned::new(PageIndex(first), pages, size_after));
    /// let limits = Limits::for_updates(256, &planned)?;
    /// assert_eq!((limits.pages, limits.nodes, limits.updates), (4 + 2 + 1, 7 + 5 + 4, 3));
    ///
    /// planned[2].pages = 65;
    /// let refused = Limits::for_updates(256, &planned).unwrap_err();
    /// assert_eq!(refused.to_string(), "limits not allowed: planned update 3 has 65 pages, and an update has 1 to 64");
    /// # Ok(())
    /// # }
    /// ```
    pub fn for_updates(page_size: u64, updates: &[Planned]) -> Result<Limits, LimitsError> {
        let (mut pages, mut nodes) = (0u64, 0u64);
        for (number, update) in (1..).zip(updates) {
            let count = update.node_count(Some(number))?;
            pages = pages.saturating_add(update.pages);
            nodes = nodes.saturating_add(count);
        }
        Limits::new(page_size, pages, nodes, updates.len() as u64).explained()
    }

    /// Enough for any `updates` updates of up to `pages_per_update` pages each, in a blob of up to `blob_pages`
    /// pages, from empty on: for each, the most nodes that one of that many pages makes in such a blob. Refused where there is
    /// no such update, or where FORMAT would not accept what they need together; the [`LimitsError`] says why.
    ///
    /// Where `blob_pages` is a power of two and `pages_per_update` at most half of it, the most is
    /// [`worst_node_count`](crate::worst_node_count), that of a blob of exactly so many pages. It is proved that updates of
    /// fewer pages, or that leave a smaller blob, make no more. For any other size of the blob, and for updates of more than
    /// half of it, each first page is tried: one update of 64 pages that fills a blob of 64 makes 127 nodes.
    ///
    /// ```
    /// use pit_host::{worst_node_count, Capacity, Limits, LimitsError};
    /// # fn main() -> Result<(), LimitsError> {
    /// let limits = Limits::worst(4096, 1024, 100, 2)?;
    /// assert_eq!((limits.pages, limits.nodes, limits.updates), (200, 100 * 21, 100));
    /// assert_eq!(worst_node_count(1024, 2), 21);
    ///
    /// assert_eq!(Limits::worst(4096, 1000, 100, 2)?.nodes, 100 * 21);
    /// assert_eq!(Limits::worst(4096, 64, 100, 64)?.nodes, 100 * 127);
    ///
    /// let refused = Limits::worst(4096, 4096, 4096, 64).unwrap_err();
    /// assert_eq!(refused, LimitsError::Capacity { of: Capacity::Pages, asked: 262_144, most: 65_535 });
    /// assert_eq!(refused.to_string(), "limits not allowed: asked for 262,144 pages, and a store has 1 to 65,535");
    /// # Ok(())
    /// # }
    /// ```
    pub fn worst(
        page_size: u64,
        blob_pages: u64,
        updates: u64,
        pages_per_update: u64,
    ) -> Result<Limits, LimitsError> {
        let most = match ffi::worst_node_count(blob_pages, pages_per_update) {
            0 => most_from_each_page(blob_pages, pages_per_update)?,
            proved => proved,
        };
        let pages = updates.saturating_mul(pages_per_update);
        let nodes = updates.saturating_mul(most);
        Limits::new(page_size, pages, nodes, updates).explained()
    }

    /// Whether FORMAT accepts these limits: [`Error::PageSize`] or [`Error::Capacity`] where it does not.
    ///
    /// ```
    /// use pit_host::{Error, Limits};
    /// let limits = Limits::new(16, 65_536, 1, 1);
    /// assert_eq!(limits.check(), Err(Error::Capacity));
    /// ```
    pub fn check(&self) -> Result<(), Error> {
        // The proved FORMAT decides. It looks at the areas' lengths last, and no store has empty areas.
        let none = PartsMut {
            pages: &mut [],
            nodes: &mut [],
            register: &mut [],
        };
        match Error::check(ffi::format(self.numbers(), none.into()).refusal) {
            Err(Error::AreaLength) => Ok(()),
            other => other,
        }
    }

    /// [`check`](Limits::check), with the reason in numbers: the page size, or the capacity that is not allowed. Of more than
    /// one it is the first of updates, pages and nodes.
    ///
    /// ```
    /// use pit_host::{Capacity, Limits, LimitsError};
    /// let refused = Limits::new(16, 65_536, 1, 1).explain().unwrap_err();
    /// assert_eq!(refused, LimitsError::Capacity { of: Capacity::Pages, asked: 65_536, most: 65_535 });
    /// let refused = Limits::new(24, 4, 8, 2).explain().unwrap_err();
    /// assert_eq!(
    ///     refused.to_string(),
    ///     "limits not allowed: the page size is 24 bytes, and must be a power of two from 16 to 4,096"
    /// );
    /// ```
    pub fn explain(&self) -> Result<(), LimitsError> {
        self.check().map_err(|refusal| match refusal {
            Error::PageSize => LimitsError::PageSize {
                asked: self.page_size,
            },
            _ => self.wrong_capacity(),
        })
    }

    fn explained(self) -> Result<Limits, LimitsError> {
        self.explain().map(|()| self)
    }

    /// The capacity for which FORMAT refuses these limits: where it is neither the updates nor the pages, the nodes. With the
    /// updates first, what [`worst`](Limits::worst) multiplies is exact where it is shown.
    fn wrong_capacity(&self) -> LimitsError {
        let asked = |of| match of {
            Capacity::Pages => self.pages,
            Capacity::Nodes => self.nodes,
            Capacity::Updates => self.updates,
        };
        let wrong = |of: &Capacity| !(1..=of.most()).contains(&asked(*of));
        let first = [Capacity::Updates, Capacity::Pages].into_iter().find(wrong);
        let of = first.unwrap_or(Capacity::Nodes);
        LimitsError::Capacity {
            of,
            asked: asked(of),
            most: of.most(),
        }
    }

    pub(crate) fn numbers(&self) -> [u64; 4] {
        [self.page_size, self.pages, self.nodes, self.updates]
    }
}

/// The most nodes that an update of so many pages makes in a blob of so many, each first page tried. Fewer pages, or a smaller
/// blob, never make more: their range or tree is a part of the larger one.
fn most_from_each_page(blob_pages: u64, pages: u64) -> Result<u64, LimitsError> {
    let update = |first| Planned::new(PageIndex(first), pages, blob_pages);
    let mut most = update(0).node_count(None)?;
    for first in 1..=blob_pages - pages {
        most = most.max(update(first).node_count(None)?);
    }
    Ok(most)
}

impl Planned {
    /// An update of `pages` pages from page `first` on, where the blob has `size_after` pages after it. Whether a store takes it,
    /// [`Limits::for_updates`] says.
    pub fn new(first: PageIndex, pages: u64, size_after: u64) -> Planned {
        Planned {
            first,
            pages,
            size_after,
        }
    }

    /// How many nodes it makes. The proved count decides whether a store takes it, and is 0 where none does.
    fn node_count(&self, number: Option<u64>) -> Result<u64, LimitsError> {
        match ffi::node_count(self.first.0, self.pages, self.size_after) {
            0 => Err(LimitsError::Update {
                number,
                planned: *self,
                wrong: self.wrong(),
            }),
            count => Ok(count),
        }
    }

    /// What is wrong with it, where something is.
    fn wrong(&self) -> WrongUpdate {
        if self.pages == 0 {
            WrongUpdate::NoPages
        } else if self.pages > MOST_OF_UPDATE {
            WrongUpdate::TooManyPages
        } else if self.size_after > MOST_PAGES {
            WrongUpdate::BlobTooLarge
        } else {
            WrongUpdate::PastEnd
        }
    }
}
