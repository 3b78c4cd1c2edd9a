//! One store for many threads: handles, whole updates, snapshots, and a store rebuilt under its running callers.

mod core;
mod epoch;
pub mod handle;
pub mod image;
pub mod instance;
pub mod log;
pub mod numbering;
#[allow(unsafe_code)]
mod page_area;
pub mod rebuild;
pub mod room;
pub mod snapshot;
pub mod updates;
mod visible;
mod writer;

pub use self::core::Core;
pub use handle::{Handle, Shared};
pub use writer::Writer;
