//! The journal of a store: every call that changed it, in order, so that the store is made again from a saved one.
//!
//! A journal is a header of 64 bytes and then entries, all numbers lowest byte first:
//!
//! | Bytes | What |
//! |---|---|
//! | 0 to 7 | the letters `PITJRNAL` |
//! | 8 to 63 | numbers of 64 bits: form, 1; generation; number of the first entry; salt; salt of the journal that it goes on after, 0 where it is read after its own saved store alone, as a folder's first and one whose store was rebuilt; 0; checksum, CRC-64/XZ, over all bytes before it |
//!
//! | Bytes of an entry | What |
//! |---|---|
//! | 0 to 3 | the byte 0xe7 and the letters `PIT` |
//! | 4 to 7 | the payload's length in bytes |
//! | 8 to 15 | the entry's number: one after the other, from 1 on, over all generations |
//! | 16 to 23 | checksum, CRC-64/XZ, over the salt, bytes 4 to 15 and the payload |
//! | from 24 | the payload: numbers of 64 bits, the kind and three to five arguments of the call, where one that is not there is 0; of PUT and SETWINDOWS the kind and three, and then the page or the text |
//!
//! | Kind | Arguments |
//! |---|---|
//! | 0 | of a note: 0 where all entries up to its number were synced; 1 where the journal has ended too, and the header of the next one was synced |
//! | 1 BEGIN | pages |
//! | 2 PUT | ticket; page of the update; 0; the page |
//! | 3 ASSIGN as a write | line; ticket; first page |
//! | 4 ASSIGN as an append | line; ticket |
//! | 5 WEAVE | ticket; how many in a row |
//! | 6 PUBLISH | line; minute |
//! | 7 SETWINDOWS | 0; 0; 0; the text |
//! | 8 BRANCH | line; version |
//!
//! Three arguments are written where the last two are 0, else five. No call that there is has more than three.
//!
//! Behind the entries stand bytes that were written ahead, the salt's eight bytes inverted again and again; a journal that is closed has none.
//!
//! After each sync, but that which ends a journal, an entry of kind 0 is written. It has the number of the last call that was synced, and no call. It tells
//! damage in what was once on the disk, which is an error, from what a power cut leaves of writes that were not yet synced:
//! any part of them, so that whole entries may follow one that is not.
//!
//! A journal that has ended says so by its last entry: when the next one's header is on the disk, one of kind 0 with the argument 1 is written behind
//! all others, with the number of the last call, and synced before the next one has entries. Nothing stands behind it. From then on the next journal
//! is not to be missed. A power cut may leave any part of that note, which then counts as none.
//!
//! A journal is read a part at a time, by entries, of which the longest has 4,152 bytes: its length takes no memory. That goes also for
//! the search for whole entries behind one that is not, and for what is written anew where the journal goes on.

mod ahead;
mod batch;
mod call;
mod entry;
mod error;
mod header;
mod input;
mod output;
mod policy;
mod progress;
mod replay;
#[cfg(test)]
pub mod tests;
mod writer;

pub use call::{Call, ReplayError};
pub use error::{Cut, JournalError, JournalErrorKind};
pub use policy::SyncAt;

pub(crate) use header::{new_salt, Header};
pub(crate) use input::{Input, PART};
pub(crate) use output::{is_no_room, note_ended};
pub(crate) use replay::{replay, Replayed};
pub(crate) use writer::Journal;
