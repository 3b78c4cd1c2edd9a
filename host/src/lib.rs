//! The dispatch host's side of the pit model store: one blob of pages, kept in versions that share what they have
//! in common, on up to sixteen lines. The calls are proved, and linked as static libraries; this crate is the Rust over
//! them.
//!
//! - [`Store`] owns its areas, or works in areas of any kind that the host has: see [`Storage`].
//! - [`Shared`] is a store for threads: writers each on a ticket, readers beside each other. [`Durable`] is one that is kept in a
//!   folder, and [`Reader`] one that is read there alone. All are a [`Handle`], which also has whole updates in one call, and rebuilds a
//!   store that is full into another one.
//! - [`Snapshot`] is a published version, held for reading without a lock.
//! - [`Store::save`] and [`Store::load`] keep a store in a file. [`inspect`](fn@inspect) looks at a folder without opening it, as the tool `pit`
//!   does.
//! - [`Limits`], [`root_span`], [`node_count`] and [`worst_node_count`] size the areas.
//! - [`Windows`] are the times of the week during which nothing is published; [`Minute::of`] is a time's minute.
//! - A refused call gives an [`Error`], with the number of its row in the table of refusals; where it is a text of windows
//!   that is refused, a [`WindowsError`], with the line that is wrong; where it is limits, a [`LimitsError`], in numbers. A
//!   [`Failure`] is any of them, or a [`FileError`]: with it `?` works whatever is called.
//!
//! ```
//! use pit_host::{Failure, Limits, Line, Minute, PageIndex, Published, Store, Version};
//! # fn main() -> Result<(), Failure> {
//! // Room for 100 updates of up to 2 pages each, in a road model of up to 64 pages of 256 bytes.
//! let mut store = Store::format(Limits::worst(256, 64, 100, 2)?)?;
//!
//! let live = Line(0);
//! let ticket = store.begin(2)?;
//! store.put(ticket, 1, &[20; 256])?;
//! store.put(ticket, 0, &[10; 256])?;
//! let assigned = store.append(live, ticket)?;
//! for _ in 0..assigned.nodes {
//!     store.weave(ticket)?;
//! }
//! assert_eq!(store.publish(live, Minute(0))?, Published::Now(Version(1)));
//!
//! assert_eq!(store.size(live, Version(1))?, 512);
//! assert_eq!(store.stamp(live, Version(1), PageIndex(1))?, Version(1));
//! assert_eq!(store.view(live, Version(1), PageIndex(1))?, [20; 256]);
//!
//! let plan = store.branch(live, Version(1))?; // reads as line 0 up to version 1, and goes on by itself
//! assert_eq!(store.view(plan, Version(1), PageIndex(1))?, [20; 256]);
//! # Ok(())
//! # }
//! ```

#![deny(unsafe_code, missing_docs)]

// what the tests share names the package as its users do
#[cfg(test)]
extern crate self as pit_host;

mod calls;
mod disk;
mod failure;
mod shared;

pub use calls::areas::{
    Areas, Capacity, Limits, LimitsError, Parts, PartsMut, Planned, Storage, WrongUpdate,
};
pub use calls::counters::{ByteOffset, Line, LineVersion, Minute, PageIndex, Ticket, Version};
pub use calls::difference::Difference;
pub use calls::error::Error;
pub use calls::ffi::{
    node_count, root_span, worst_node_count, Entries, LineState, Record, State, Window, Windows,
};
pub use calls::store::{Assigned, Node, Published, Store};
pub use calls::windows::{Why, WindowsError, WrongLine};
pub use disk::durable::{Durable, InFolder};
pub use disk::file::FileError;
pub use disk::folder::{Comparison, Earlier, OpenBy, Opened, Options};
pub use disk::inspect::{inspect, inspect_earlier, Inspection};
pub use disk::journal::{Cut, JournalError, JournalErrorKind, ReplayError, SyncAt};
pub use disk::read_only::{ReadOnly, Reader};
pub use failure::Failure;
pub use shared::handle::{Handle, Shared};
pub use shared::log::{Log, Memory};
pub use shared::rebuild::Rebuilt;
pub use shared::room::Room;
pub use shared::snapshot::Snapshot;
pub use shared::updates::OpenTicket;

/// The Rust in the repository's README, run as a test.
#[cfg(doctest)]
#[doc = include_str!("../../README.md")]
struct Readme;
