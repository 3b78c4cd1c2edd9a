//! What readers hold of a store without its lock.

use super::page_area::PageArea;
use crate::calls::areas::{place_of, record};
use crate::calls::counters::LineVersion;
use crate::calls::ffi::Record;
use std::sync::atomic::{AtomicBool, AtomicU64, Ordering};
use std::sync::Arc;

/// What a version changed, in one number, as a reader takes it without a lock: the line (4 bits), the version (16), its first page (16),
/// how many (8) and the first page number (16). 0 is none: a version has at least one page.
#[derive(Clone, Copy, Debug, PartialEq, Eq)]
pub struct Change {
    pub line: u64,
    pub version: u64,
    pub first: u64,
    pub pages: u64,
    pub number: u64,
}

impl Change {
    /// 0 where a number has no room, as in no store that calls left.
    fn pack(self) -> u64 {
        let fields = [
            (self.line, 4),
            (self.version, 16),
            (self.first, 16),
            (self.pages, 8),
            (self.number, 16),
        ];
        let has_room = |(field, bits): &(u64, u32)| *field < 1 << bits;
        if !fields.iter().all(has_room) || self.number + self.pages > 1 << 16 {
            return 0;
        }
        let append = |word: u64, (field, bits): (u64, u32)| (word << bits) | field;
        fields.into_iter().fold(0, append)
    }

    fn of(word: u64) -> Option<Change> {
        let field = |shift: u32, bits: u32| (word >> shift) % (1 << bits);
        (word != 0).then(|| Change {
            line: field(56, 4),
            version: field(40, 16),
            first: field(24, 16),
            pages: field(16, 8),
            number: field(0, 16),
        })
    }
}

/// What readers hold of a store without its lock: the pages, and what each update changed, in the order of ASSIGN over all lines.
pub struct Epoch {
    pub pages: Arc<PageArea>,
    changes: Box<[AtomicU64]>,
    /// Another store has taken this one's place.
    ended: AtomicBool,
}

impl Epoch {
    /// What readers hold of a store with these pages, and this register with so many updates.
    pub fn new(pages: Arc<PageArea>, register: &[Record], assigned: u64) -> Arc<Epoch> {
        let epoch = Epoch {
            pages,
            changes: register.iter().map(|_| AtomicU64::new(0)).collect(),
            ended: AtomicBool::new(false),
        };
        let updates = assigned.min(register.len() as u64);
        (1..=updates).for_each(|update| epoch.note(update, register));
        Arc::new(epoch)
    }

    /// Another store takes this one's place.
    pub fn end(&self) {
        self.ended.store(true, Ordering::Release);
    }

    /// What the update after so many others changed; none where it is not known here.
    #[inline]
    pub fn change(&self, update: usize) -> Option<Change> {
        Change::of(self.changes.get(update)?.load(Ordering::Acquire))
    }

    /// Whether another store has taken this one's place.
    #[inline]
    pub fn has_ended(&self) -> bool {
        self.ended.load(Ordering::Acquire)
    }

    /// Notes what an update, counted from 1, changed.
    pub fn note(&self, update: u64, register: &[Record]) {
        if let Some((at, change)) = change_of(update, register) {
            if let Some(word) = self.changes.get(at) {
                word.store(change.pack(), Ordering::Release);
            }
        }
    }
}

/// What an update, counted from 1, changed, by the register; and its place from 0.
fn change_of(update: u64, register: &[Record]) -> Option<(usize, Change)> {
    let at = place_of(update)?;
    let made = register.get(at)?;
    let ticket = record(register, made.ticket)?;
    let name = LineVersion(made.name);
    let change = Change {
        line: name.line().0,
        version: name.version().0,
        first: made.f,
        pages: ticket.n,
        number: ticket.number,
    };
    Some((at, change))
}
