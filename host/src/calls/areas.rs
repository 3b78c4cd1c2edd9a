//! The limits of a store and the three areas that it works in: pages, nodes and the register of updates.

mod limits;
mod limits_error;

use crate::calls::error::Error;
use crate::calls::ffi::{RawAreas, Record};
use crate::calls::hints;
use std::fmt;

pub use limits::{Limits, Planned};
pub(crate) use limits::{MOST_OF_UPDATE, MOST_PAGES};
pub use limits_error::{Capacity, LimitsError, WrongUpdate};

/// Areas that can be lent to a call. All calls of a [`Store`](crate::Store) are written over this, so a host
/// may keep the areas wherever it likes. Nothing has to be promised of their lengths or contents: over areas
/// that are not as the last call left them the calls refuse, or answer from what they find, and stay in bounds.
pub trait Storage {
    /// The areas, to be read.
    fn parts(&self) -> Parts<'_>;
    /// The areas, to be written.
    fn parts_mut(&mut self) -> PartsMut<'_>;

    /// The areas, to be written by one call of the store. Only areas that threads share have a reason for another.
    #[doc(hidden)]
    #[inline]
    fn raw(&mut self) -> RawAreas<'_> {
        self.parts_mut().into()
    }
}

/// The three areas of a store, to be read.
#[derive(Clone, Copy, PartialEq, Eq)]
pub struct Parts<'a> {
    /// The page area.
    pub pages: &'a [u8],
    /// The node area: two numbers a node.
    pub nodes: &'a [u32],
    /// The register of updates.
    pub register: &'a [Record],
}

/// The place, from 0, of what is counted from 1, as tickets, updates and their records are; 0 counts nothing.
pub(crate) fn place_of(number: u64) -> Option<usize> {
    usize::try_from(number.checked_sub(1)?).ok()
}

/// The record of the register with this number, where it has one.
pub(crate) fn record(register: &[Record], number: u64) -> Option<&Record> {
    register.get(place_of(number)?)
}

/// The three areas of a store, lent to it by the host, who keeps the memory.
///
/// ```
/// use pit_host::{Limits, Line, PartsMut, Record, Store, Version};
/// let (mut pages, mut nodes, mut register) = ([0; 64], [0; 16], [Record::default(); 2]);
/// let areas = PartsMut { pages: &mut pages, nodes: &mut nodes, register: &mut register };
/// let store = Store::format_in(Limits::new(16, 4, 8, 2), areas).unwrap();
/// assert_eq!(store.recent(Line(0)), Ok(Version(0)));
/// ```
#[derive(PartialEq, Eq)]
pub struct PartsMut<'a> {
    /// The page area: page size × pages bytes.
    pub pages: &'a mut [u8],
    /// The node area: two numbers a node.
    pub nodes: &'a mut [u32],
    /// The register of updates: a record an update.
    pub register: &'a mut [Record],
}

/// The three areas of a store, owned. A page area of 4 MiB and more is to lie in huge pages, where the system has them.
///
/// ```
/// use pit_host::{Areas, Limits};
/// let areas = Areas::new(&Limits::new(16, 4, 8, 2)).unwrap();
/// assert_eq!((areas.pages().len(), areas.nodes().len(), areas.register().len()), (64, 16, 2));
/// ```
#[derive(PartialEq, Eq)]
pub struct Areas {
    pages: Box<[u8]>,
    nodes: Box<[u32]>,
    register: Box<[Record]>,
}

/// The page area, the node area and the register.
pub(crate) type OwnParts = (Box<[u8]>, Box<[u32]>, Box<[Record]>);

impl Areas {
    /// Areas of the lengths that the limits ask for, all zeros; refused as FORMAT refuses the limits, before any
    /// memory is taken.
    pub fn new(limits: &Limits) -> Result<Areas, Error> {
        limits.check()?;
        // Accepted, the longest area has less than 2^28 bytes.
        let length = |elements: u64| elements as usize;
        Ok(Areas {
            pages: hints::zeros(length(limits.page_size * limits.pages)),
            nodes: vec![0; length(2 * limits.nodes)].into(),
            register: vec![Record::default(); length(limits.updates)].into(),
        })
    }

    /// Copies of these.
    pub(crate) fn from_parts(parts: Parts<'_>) -> Areas {
        Areas {
            pages: hints::copy_of(parts.pages),
            nodes: parts.nodes.into(),
            register: parts.register.into(),
        }
    }

    pub(crate) fn into_parts(self) -> OwnParts {
        (self.pages, self.nodes, self.register)
    }

    /// The page area.
    pub fn pages(&self) -> &[u8] {
        &self.pages
    }

    /// The node area: two numbers a node.
    pub fn nodes(&self) -> &[u32] {
        &self.nodes
    }

    /// The register of updates.
    pub fn register(&self) -> &[Record] {
        &self.register
    }
}

impl Clone for Areas {
    fn clone(&self) -> Areas {
        Areas::from_parts(self.parts())
    }
}

impl Storage for Areas {
    #[inline]
    fn parts(&self) -> Parts<'_> {
        Parts {
            pages: &self.pages,
            nodes: &self.nodes,
            register: &self.register,
        }
    }

    #[inline]
    fn parts_mut(&mut self) -> PartsMut<'_> {
        PartsMut {
            pages: &mut self.pages,
            nodes: &mut self.nodes,
            register: &mut self.register,
        }
    }
}

impl Storage for PartsMut<'_> {
    #[inline]
    fn parts(&self) -> Parts<'_> {
        Parts {
            pages: self.pages,
            nodes: self.nodes,
            register: self.register,
        }
    }

    #[inline]
    fn parts_mut(&mut self) -> PartsMut<'_> {
        PartsMut {
            pages: self.pages,
            nodes: self.nodes,
            register: self.register,
        }
    }
}

/// Areas are shown by their lengths: their contents fill screens.
fn show(name: &str, parts: Parts<'_>, f: &mut fmt::Formatter<'_>) -> fmt::Result {
    f.debug_struct(name)
        .field("pages", &parts.pages.len())
        .field("nodes", &parts.nodes.len())
        .field("register", &parts.register.len())
        .finish()
}

impl fmt::Debug for Parts<'_> {
    fn fmt(&self, f: &mut fmt::Formatter<'_>) -> fmt::Result {
        show("Parts", *self, f)
    }
}

impl fmt::Debug for Areas {
    fn fmt(&self, f: &mut fmt::Formatter<'_>) -> fmt::Result {
        show("Areas", self.parts(), f)
    }
}

impl fmt::Debug for PartsMut<'_> {
    fn fmt(&self, f: &mut fmt::Formatter<'_>) -> fmt::Result {
        show("PartsMut", self.parts(), f)
    }
}
