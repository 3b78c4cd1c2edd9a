//! The store of this repository, by the host library's calls.

use crate::contenders::Contender;
use crate::measures::timing::BATCH;
use crate::workload::{Shape, Update, MOST};
use pit_host::{ByteOffset, Limits, Line, Minute, PageIndex, Record, State, Store, Version};
use std::mem::size_of;

/// The line that begins with the store.
const LIVE: Line = Line(0);

pub struct Ours {
    page_size: u64,
    store: Store,
    /// The store with just the updates that stand.
    standing: Option<Store>,
}

impl Ours {
    /// Room for the updates that stand and one batch of the longest updates more.
    pub fn new(shape: &Shape) -> Ours {
        Ours::with_room(shape, BATCH * MOST)
    }

    /// Room for the updates that stand and so many pages more.
    pub fn with_room(shape: &Shape, more: usize) -> Ours {
        let pages: usize = shape.standing().iter().map(|update| update.pages).sum();
        let room = (pages + more) as u64;
        let limits = Limits::new(shape.page_size as u64, room, 131_072, 4_096);
        Ours {
            page_size: limits.page_size,
            store: Store::format(limits).expect("the limits are accepted"),
            standing: None,
        }
    }

    pub fn into_store(self) -> Store {
        self.store
    }

    /// The memory that bookkeeping takes so far, in bytes: a record an update, and its nodes.
    pub fn bookkeeping(&self) -> usize {
        let State {
            assigned, places, ..
        } = self.store.state();
        let node = 2 * size_of::<u32>();
        assigned as usize * size_of::<Record>() + places as usize * node
    }
}

const ACCEPTED: &str = "the store accepts the call";

impl Contender for Ours {
    fn update(&mut self, first: usize, bytes: &[u8]) {
        let pages = bytes.chunks_exact(self.page_size as usize);
        let ticket = self.store.begin(pages.len() as u64).expect(ACCEPTED);
        for (i, page) in pages.enumerate() {
            self.store.put(ticket, i as u64, page).expect(ACCEPTED);
        }
        let first = PageIndex(first as u64);
        self.store.write(LIVE, ticket, first).expect(ACCEPTED);
        while self.store.weave(ticket).expect(ACCEPTED).rest > 0 {}
        let published = self.store.publish(LIVE, Minute(0)).expect(ACCEPTED);
        assert!(published.version().is_some());
    }

    fn view(&self, version: usize, page: usize) -> &[u8] {
        let (version, page) = (Version(version as u64), PageIndex(page as u64));
        self.store.view(LIVE, version, page).expect(ACCEPTED)
    }

    fn read(&self, version: usize, page: usize, to: &mut [u8]) {
        let offset = ByteOffset(page as u64 * self.page_size);
        self.store
            .read(LIVE, Version(version as u64), offset, to)
            .expect(ACCEPTED);
    }

    fn read_run(&self, version: usize, run: Update, to: &mut [u8]) {
        self.read(version, run.first, to); // in one call
    }

    fn keeps_versions(&self) -> bool {
        true
    }

    fn settle(&mut self) {
        self.standing = Some(self.store.clone());
    }

    fn before_updates(&mut self) {
        self.store = self.standing.clone().expect("the store is settled");
    }
}
