//! The store of this repository with tickets in work: versions of its line that wait for their last node.

use crate::contenders::Contender;
use crate::measures::timing::BATCH;
use crate::workload::{Shape, Source, MOST};
use pit_host::{ByteOffset, Limits, Line, Minute, PageIndex, Store, Ticket, Version};
use std::collections::VecDeque;

/// The line that begins with the store.
const LIVE: Line = Line(0);

/// So many tickets are in work, of one page each at first.
pub const IN_WORK: usize = 40;

/// A round has fewer updates than elsewhere: with 4,000 that stand and those in work the register has room for no more.
pub const TIMED: usize = 32;

/// Each update gets its version and is woven but for its last node. Then the oldest in work gets that, and is published. So
/// an update has the calls of any other, and there are always as many in work between it and the last published version.
#[derive(Clone)]
pub struct InWork {
    page_size: u64,
    store: Store,
    /// The tickets in work, the oldest first.
    waiting: VecDeque<Ticket>,
    /// The same with just the updates that stand, and the first ones in work.
    standing: Option<Box<InWork>>,
}

const ACCEPTED: &str = "the store accepts the call";

impl InWork {
    /// With the updates that stand, published, the tickets in work, and room for one batch of the longest updates more.
    pub fn new(shape: &Shape, source: &Source) -> InWork {
        let standing = shape.standing();
        let pages: usize = standing.iter().map(|update| update.pages).sum();
        let room = (pages + IN_WORK + BATCH * MOST) as u64;
        let limits = Limits::new(shape.page_size as u64, room, 131_072, 4_096);
        let mut in_work = InWork {
            page_size: limits.page_size,
            store: Store::format(limits).expect("the limits are accepted"),
            waiting: VecDeque::new(),
            standing: None,
        };
        for (k, update) in standing.iter().enumerate() {
            in_work.start(update.first, source.bytes(k, update.pages));
            in_work.finish();
        }
        for (k, update) in shape.random_updates(5, IN_WORK, 1).iter().enumerate() {
            in_work.start(update.first, source.bytes(k, update.pages));
        }
        in_work.settle();
        in_work
    }

    /// An update up to its last node.
    fn start(&mut self, first: usize, bytes: &[u8]) {
        let pages = bytes.chunks_exact(self.page_size as usize);
        let ticket = self.store.begin(pages.len() as u64).expect(ACCEPTED);
        for (i, page) in pages.enumerate() {
            self.store.put(ticket, i as u64, page).expect(ACCEPTED);
        }
        let first = PageIndex(first as u64);
        let assigned = self.store.write(LIVE, ticket, first).expect(ACCEPTED);
        for _ in 1..assigned.nodes {
            self.store.weave(ticket).expect(ACCEPTED);
        }
        self.waiting.push_back(ticket);
    }

    /// The last node of the oldest update in work, which is published.
    fn finish(&mut self) {
        let ticket = self.waiting.pop_front().expect("one is in work");
        let node = self.store.weave(ticket).expect(ACCEPTED);
        assert_eq!(node.rest, 0);
        let published = self.store.publish(LIVE, Minute(0)).expect(ACCEPTED);
        assert!(published.version().is_some());
    }
}

impl Contender for InWork {
    fn update(&mut self, first: usize, bytes: &[u8]) {
        self.start(first, bytes);
        self.finish();
    }

    fn view(&self, version: usize, page: usize) -> &[u8] {
        let (version, page) = (Version(version as u64), PageIndex(page as u64));
        self.store.view(LIVE, version, page).expect(ACCEPTED)
    }

    fn read(&self, version: usize, page: usize, to: &mut [u8]) {
        let offset = ByteOffset(page as u64 * self.page_size);
        let version = Version(version as u64);
        let read = self.store.read(LIVE, version, offset, to);
        read.expect(ACCEPTED);
    }

    fn keeps_versions(&self) -> bool {
        true
    }

    /// The last ones are in work.
    fn shows_all(&self) -> bool {
        false
    }

    fn settle(&mut self) {
        self.standing = Some(Box::new(self.clone()));
    }

    fn before_updates(&mut self) {
        let standing = self.standing.take().expect("the store is settled");
        *self = InWork::clone(&standing);
        self.standing = Some(standing);
    }
}
