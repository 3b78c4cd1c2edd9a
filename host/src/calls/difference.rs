//! Where two stores differ.

use crate::calls::areas::Storage;
use crate::calls::store::Store;
use std::fmt;

/// Where two stores first differ.
#[derive(Clone, Copy, Debug, PartialEq, Eq)]
#[non_exhaustive]
pub enum Difference {
    /// In their limits, or in what else the calls carry from one to the next.
    State,
    /// In the site's windows.
    Windows,
    /// In an area's length.
    Lengths,
    /// In this record of the register, from 1.
    Record(u64),
    /// In this place of the node area, from 0.
    Node(u64),
    /// In this byte of the page area, from 0.
    PageByte(u64),
}

impl fmt::Display for Difference {
    fn fmt(&self, f: &mut fmt::Formatter<'_>) -> fmt::Result {
        match self {
            Difference::State => f.write_str("they differ in the state"),
            Difference::Windows => f.write_str("they differ in the windows"),
            Difference::Lengths => f.write_str("they differ in an area's length"),
            Difference::Record(number) => write!(f, "they differ in record {number}"),
            Difference::Node(place) => write!(f, "they differ in node place {place}"),
            Difference::PageByte(at) => write!(f, "they differ in byte {at} of the page area"),
        }
    }
}

impl<A: Storage> Store<A> {
    /// Where this store first differs from another; none where they are the same to the last byte.
    ///
    /// ```
    /// use pit_host::{Difference, Limits, Store};
    /// # fn main() -> Result<(), pit_host::Error> {
    /// let mut store = Store::format(Limits::new(16, 4, 8, 2))?;
    /// store.begin(1)?;
    /// let mut other = store.clone();
    /// assert_eq!(store.difference(&other), None);
    /// let ticket = other.begin(1)?;
    /// assert_eq!(store.difference(&other), Some(Difference::State));
    /// store.begin(1)?;
    /// other.put(ticket, 0, &[7; 16])?;
    /// assert_eq!(store.difference(&other), Some(Difference::Record(2)));
    /// # Ok(())
    /// # }
    /// ```
    pub fn difference<B: Storage>(&self, other: &Store<B>) -> Option<Difference> {
        if self.state() != other.state() {
            return Some(Difference::State);
        }
        if self.windows() != other.windows() {
            return Some(Difference::Windows);
        }
        let (mine, others) = (self.areas().parts(), other.areas().parts());
        let record = first_difference(mine.register, others.register).map(|at| at + 1);
        let record = record.map(Difference::Record);
        let node = || first_difference(mine.nodes, others.nodes).map(|at| Difference::Node(at / 2));
        let byte = || first_difference(mine.pages, others.pages).map(Difference::PageByte);
        let lengths = || (mine != others).then_some(Difference::Lengths);
        record.or_else(node).or_else(byte).or_else(lengths)
    }
}

/// The first place, as far as both go, at which they differ.
fn first_difference<T: PartialEq>(mine: &[T], others: &[T]) -> Option<u64> {
    let both = mine.len().min(others.len());
    if mine[..both] == others[..both] {
        return None; // at the speed of a comparison of memory
    }
    let differ = mine.iter().zip(others).position(|(m, o)| m != o);
    differ.map(|at| at as u64)
}
