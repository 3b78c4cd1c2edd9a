//! What the journals in a store's folder hold, as documented.

/// A journal's header in bytes, and the front of an entry.
pub const HEADER: usize = 64;
const FRONT: usize = 24;
/// The kind of an entry that is no call: what it says was synced.
const SYNCED: u64 = 0;

/// An entry of a journal: where it stands, and what of it tells entries apart.
#[derive(Clone, Copy, Debug)]
pub struct Entry {
    pub begin: usize,
    pub end: usize,
    pub number: u64,
    kind: u64,
    argument: u64,
}

impl Entry {
    /// Whether it is a call, and no note of what was synced.
    pub fn is_call(&self) -> bool {
        self.kind != SYNCED
    }

    /// Whether it is the note that the journal has ended, and another goes on after it.
    pub fn is_end(&self) -> bool {
        self.kind == SYNCED && self.argument == 1
    }
}

pub fn number_at(bytes: &[u8], at: usize) -> u64 {
    u64::from_le_bytes(bytes[at..at + 8].try_into().unwrap())
}

/// The number of a journal's first entry.
pub fn first_entry(journal: &[u8]) -> u64 {
    number_at(journal, 24)
}

/// What a journal has, so many bytes from a place on, where it is written ahead of its entries.
pub fn ahead(journal: &[u8], place: usize, length: usize) -> Vec<u8> {
    let nothing = (!number_at(journal, 32)).to_le_bytes();
    let bytes = nothing.into_iter().cycle();
    bytes.skip(place % 8).take(length).collect()
}

/// The entries of a journal, up to the first that is not whole; only by their fronts.
pub fn entries(journal: &[u8]) -> Vec<Entry> {
    let (mut entries, mut begin) = (Vec::new(), HEADER);
    while let Some(front) = journal.get(begin..begin + FRONT) {
        if !front.starts_with(b"\xe7PIT") {
            break;
        }
        let length = u32::from_le_bytes(front[4..8].try_into().unwrap());
        let end = begin + FRONT + length as usize;
        if end > journal.len() {
            break;
        }
        let (number, kind) = (number_at(front, 8), number_at(journal, begin + FRONT));
        let argument = number_at(journal, begin + FRONT + 8);
        entries.push(Entry {
            begin,
            end,
            number,
            kind,
            argument,
        });
        begin = end;
    }
    entries
}
