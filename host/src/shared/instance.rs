//! The store that a handle's threads share, as it stands behind the lock.

use super::epoch::Epoch;
use super::image::Image;
use crate::calls::areas::{place_of, record, Areas, Storage};
use crate::calls::counters::{Line, LineVersion, Minute, PageIndex, Ticket, Version};
use crate::calls::error::Error;
use crate::calls::ffi::Record;
use crate::calls::store::{Assigned, Node, Published, Store};
use crate::calls::windows::WindowsError;
use crate::disk::file::{put_pages, Taken};
use crate::shared::numbering::Numbering;
use crate::shared::page_area::{PageWriter, SharedAreas};
use crate::shared::room::Mix;
use std::borrow::Cow;
use std::sync::Arc;
use std::time::{Duration, Instant};

/// A store that threads share, with its callers' numbers.
pub struct Instance {
    /// Changed here alone: PUT may write only what nobody reads.
    store: Store<SharedAreas>,
    pub numbers: Numbering,
    pub epoch: Arc<Epoch>,
    /// When a call was last made on each ticket, by the store's own numbers.
    touched: Vec<Instant>,
}

impl Instance {
    pub fn new(store: Store, mut numbers: Numbering) -> Instance {
        let (state, windows, areas) = store.into_parts();
        numbers.complete(&state);
        let (pages, nodes, register) = areas.into_parts();
        let put: Vec<u64> = put_pages(&register, &state).collect();
        let pages = PageWriter::new(pages, state.size, put.into_iter());
        let epoch = Epoch::new(pages.area().clone(), &register, state.assigned);
        let touched = vec![Instant::now(); register.len()];
        let store = Store::resume(state, windows, SharedAreas::new(pages, nodes, register));
        Instance {
            store,
            numbers,
            epoch,
            touched,
        }
    }

    /// What callers' updates took together.
    pub fn mix(&self) -> Mix {
        self.numbers.mix(&self.store.state())
    }

    /// The store, to be read.
    #[inline]
    pub fn store(&self) -> &Store<SharedAreas> {
        &self.store
    }

    /// The last published version of each line that has begun, as callers count.
    pub fn published(&self) -> Vec<Version> {
        let lines = (0..self.store.state().begun.min(16)).map(Line);
        let published = lines.map(|line| {
            let own = self.store.recent(line).ok()?;
            Some(self.numbers.version(line, own.0))
        });
        published.map_while(|version| version).collect()
    }

    /// What the register has of a ticket. Here and below, tickets are the store's own numbers.
    pub fn record(&self, ticket: u64) -> Option<&Record> {
        record(self.store.areas().parts().register, ticket)
    }

    /// What it has of the update of a ticket; none where that has no version.
    fn update_of(&self, ticket: u64) -> Option<&Record> {
        self.record(self.record(ticket)?.update)
    }

    /// The line and version that a ticket's update got, as callers count.
    pub fn version_of(&self, ticket: u64) -> Option<(Line, Version)> {
        let name = LineVersion(self.update_of(ticket)?.name);
        let (line, own) = (name.line(), name.version().0);
        Some((line, self.numbers.version(line, own)))
    }

    /// How many nodes of a ticket's version are left to weave; none where it has no version.
    pub fn nodes_left(&self, ticket: u64) -> Option<u64> {
        let update = self.update_of(ticket)?;
        Some(update.count.saturating_sub(update.woven))
    }

    /// The number of a ticket's page, and whether it is put. None where the register has no such ticket.
    fn page_of(&self, ticket: u64, i: u64) -> Option<(u64, bool)> {
        let record = self.record(ticket)?;
        Some((record.page_number(i)?, record.is_put(i)))
    }

    /// BEGIN. Here and in the calls below, tickets and versions are the store's own numbers.
    pub fn begin(&mut self, n: u64) -> Result<u64, Error> {
        Ok(self.store.begin(n)?.0)
    }

    /// PUT. A page that is put is never written again, also where a register that no run of calls left says that it may be. Bytes
    /// that lie in this store's own pages, as a snapshot gives them, are copied first: the call is lent all pages.
    pub fn put(&mut self, ticket: u64, i: u64, bytes: &[u8]) -> Result<(), Error> {
        let bytes = match self.epoch.pages.holds(bytes) {
            true => Cow::Owned(bytes.to_vec()),
            false => Cow::Borrowed(bytes),
        };
        let page = self.page_of(ticket, i);
        // bytes of another length are refused, and nothing is written
        let is_page = bytes.len() as u64 == self.store.state().size;
        if let Some((number, false)) = page.filter(|_| is_page) {
            if self.epoch.pages.is_put(number) {
                // refused for its length at the latest, and so for any row before
                let refused = self.store.put(Ticket(ticket), i, &[]);
                return refused
                    .and(Err(Error::Damaged))
                    .map_err(|error| match error {
                        Error::PageLength => Error::Damaged,
                        other => other,
                    });
            }
        }
        self.store.put(Ticket(ticket), i, &bytes)?;
        if let Some((number, _)) = page {
            self.store.areas_mut().set_put(number);
        }
        Ok(())
    }

    /// ASSIGN: as a write, or where it says no page as an append.
    pub fn assign(
        &mut self,
        line: Line,
        ticket: u64,
        first: Option<PageIndex>,
    ) -> Result<Assigned, Error> {
        let assigned = match first {
            Some(first) => self.store.write(line, Ticket(ticket), first),
            None => self.store.append(line, Ticket(ticket)),
        }?;
        let update = self.store.state().assigned;
        self.epoch.note(update, self.store.areas().parts().register);
        Ok(assigned)
    }

    /// WEAVE.
    pub fn weave(&mut self, ticket: u64) -> Result<Node, Error> {
        self.store.weave(Ticket(ticket))
    }

    /// PUBLISH.
    pub fn publish(&mut self, line: Line, minute: Minute) -> Result<Published, Error> {
        self.store.publish(line, minute)
    }

    /// BRANCH.
    pub fn branch(&mut self, line: Line, version: Version) -> Result<Line, Error> {
        let branched = self.store.branch(line, version)?;
        self.numbers.complete(&self.store.state());
        Ok(branched)
    }

    /// SETWINDOWS.
    pub fn set_windows(&mut self, text: &[u8]) -> Result<(), WindowsError> {
        self.store.set_windows(text)
    }

    /// Notes when a call was last made on a ticket, where that is known.
    pub fn set_touched(&mut self, ticket: u64, then: Option<Instant>) {
        let place = place_of(ticket).and_then(|at| self.touched.get_mut(at));
        if let (Some(touched), Some(then)) = (place, then) {
            *touched = then;
        }
    }

    /// When a call was last made on a ticket, or the store was taken up.
    pub fn touched(&self, ticket: u64) -> Option<Instant> {
        self.touched.get(place_of(ticket)?).copied()
    }

    /// For how long no call was made on a ticket by then.
    pub fn idle(&self, ticket: u64, now: Instant) -> Option<Duration> {
        Some(now.saturating_duration_since(self.touched(ticket)?))
    }

    /// Whether FORMAT could have made the areas.
    fn has_its_areas(&self) -> bool {
        let is_right = self.store.limits().check().is_ok();
        is_right && self.store.recent(Line(0)) != Err(Error::AreaLength)
    }

    /// The whole store, copied, where it is one that no run of calls left; of others [`image`](Instance::image) is enough.
    pub fn copied(&self) -> Option<Store> {
        let parts = self.store.areas().parts();
        (!self.has_its_areas()).then(|| {
            let areas = Areas::from_parts(parts);
            Store::resume(self.store.state(), self.store.windows(), areas)
        })
    }

    /// The node places taken and the records used; of any state at most those that there are.
    fn taken(&self) -> (&[u32], &[Record]) {
        let (state, parts) = (self.store.state(), self.store.areas().parts());
        let front = |length: u64, all: usize| usize::try_from(length).map_or(all, |l| l.min(all));
        let places = front(state.places.saturating_mul(2), parts.nodes.len());
        let tickets = front(state.tickets, parts.register.len());
        (&parts.nodes[..places], &parts.register[..tickets])
    }

    /// Whether it is a store that a run of calls can leave, as far as that can be told without its pages and nodes.
    pub fn is_sound(&self) -> bool {
        let (nodes, register) = self.taken();
        let taken = Taken {
            state: self.store.state(),
            windows: self.store.windows(),
            page: &|_| &[],
            nodes,
            register,
            last_part: &[],
        };
        self.has_its_areas() && taken.check().is_ok()
    }

    /// The store as it is now.
    pub fn image(&self) -> Image {
        let (state, (nodes, register)) = (self.store.state(), self.taken());
        Image {
            recent: self.numbers.version(Line(0), state.line(Line(0)).published),
            has_its_areas: self.has_its_areas(),
            state,
            windows: self.store.windows(),
            nodes: nodes.to_vec(),
            register: register.to_vec(),
            numbers: self.numbers.to_bytes(),
            pages: self.epoch.pages.clone(),
        }
    }
}
