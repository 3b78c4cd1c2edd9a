//! How much room a store has left.

use crate::calls::ffi::State;
use crate::calls::store::Store;
use crate::shared::log::Log;
use crate::shared::Handle;

/// How much room a store has left. Nothing is ever given back: a store that is full is [rebuilt](Handle::rebuild) into another one.
///
/// ```
/// use pit_host::{Limits, Line, Shared, Store};
/// # fn main() -> Result<(), pit_host::Error> {
/// let shared = Shared::new(Store::format(Limits::new(16, 10, 12, 5))?);
/// shared.append_pages(Line(0), &[&[1; 16], &[2; 16]])?; // two pages, three nodes
/// let room = shared.room();
/// assert_eq!((room.updates, room.pages, room.nodes), (4, 8, 9));
/// assert_eq!(room.at_present_mix, 3); // then there are no nodes left
/// # Ok(())
/// # }
/// ```
#[derive(Clone, Copy, Debug, PartialEq, Eq, Hash)]
#[non_exhaustive]
pub struct Room {
    /// Updates that can still begin.
    pub updates: u64,
    /// Pages that are not taken.
    pub pages: u64,
    /// Node places that are not taken.
    pub nodes: u64,
    /// Lines that can still begin.
    pub lines: u64,
    /// How many more updates that is, if they are as those before: with as many pages each, and as many nodes. In a store that was
    /// [rebuilt](Handle::rebuild), those that callers made, and not those by which it was.
    pub at_present_mix: u64,
}

/// What updates took together.
#[derive(Clone, Copy, Debug, Default, PartialEq, Eq)]
pub struct Mix {
    /// Those that have begun, and their pages.
    tickets: u64,
    pages: u64,
    /// Those that have versions, and their nodes.
    updates: u64,
    nodes: u64,
}

impl Mix {
    /// All of a store's.
    pub fn of(s: &State) -> Mix {
        Mix::from_words([s.tickets, s.taken, s.assigned, s.places])
    }

    /// As numbers, and back.
    pub fn words(self) -> [u64; 4] {
        [self.tickets, self.pages, self.updates, self.nodes]
    }

    pub fn from_words([tickets, pages, updates, nodes]: [u64; 4]) -> Mix {
        Mix {
            tickets,
            pages,
            updates,
            nodes,
        }
    }

    fn by(self, other: Mix, combine: impl Fn(u64, u64) -> u64) -> Mix {
        let ([a, b, c, d], [p, q, r, s]) = (self.words(), other.words());
        Mix::from_words([combine(a, p), combine(b, q), combine(c, r), combine(d, s)])
    }

    pub fn and(self, other: Mix) -> Mix {
        self.by(other, u64::saturating_add)
    }

    pub fn without(self, other: Mix) -> Mix {
        self.by(other, u64::saturating_sub)
    }
}

impl Room {
    /// What a store with this state has left, where updates are as these.
    fn of(s: &State, mix: Mix) -> Room {
        let updates = s.updates.saturating_sub(s.tickets);
        let pages = s.pages.saturating_sub(s.taken);
        let nodes = s.nodes.saturating_sub(s.places);
        // so many as there is room for, where `taken` were taken by `by`
        let last = |left: u64, taken: u64, by: u64| left.saturating_mul(by).checked_div(taken);
        let by_pages = last(pages, mix.pages, mix.tickets).unwrap_or(pages);
        let by_nodes = last(nodes, mix.nodes, mix.updates).unwrap_or(nodes);
        Room {
            updates,
            pages,
            nodes,
            lines: 16u64.saturating_sub(s.begun),
            at_present_mix: updates.min(by_pages).min(by_nodes),
        }
    }
}

impl<A> Store<A> {
    /// How much room is left.
    pub fn room(&self) -> Room {
        let state = self.state();
        Room::of(&state, Mix::of(&state))
    }
}

impl<L: Log> Handle<L> {
    /// How much room is left.
    pub fn room(&self) -> Room {
        let instance = self.core.reading();
        Room::of(&instance.store().state(), instance.mix())
    }
}
