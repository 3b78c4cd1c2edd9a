//! Entries that are taken and not yet written.

use super::entry::{encode, Content};
use super::header::Header;
use std::fs::File;
use std::mem;

/// Entries in their order, with the places where the next journal begins.
#[derive(Default)]
pub struct Batch {
    /// Journals that end before the entries do.
    pub ended: Vec<Ended>,
    pub entries: Vec<u8>,
    /// The number of the last entry taken so far.
    pub last: u64,
}

/// The last entries of a journal, and the one that goes on after it.
pub struct Ended {
    pub entries: Vec<u8>,
    pub next: File,
    pub header: Header,
}

impl Batch {
    /// Takes an entry, and gives its number.
    pub fn append(&mut self, content: &Content<'_>) -> u64 {
        self.last += 1;
        encode(content, self.last, &mut self.entries);
        self.last
    }

    /// From here on the entries are the next journal's. Which is its first is known here, whatever the header says.
    pub fn switch(&mut self, next: File, header: Header) {
        let header = Header {
            first: self.last + 1,
            ..header
        };
        self.ended.push(Ended {
            entries: mem::take(&mut self.entries),
            next,
            header,
        });
    }

    /// All that was taken; what is taken next goes into this room.
    pub fn take(&mut self, room: Vec<u8>) -> Batch {
        let next = Batch {
            ended: Vec::new(),
            entries: room,
            last: self.last,
        };
        mem::replace(self, next)
    }
}
