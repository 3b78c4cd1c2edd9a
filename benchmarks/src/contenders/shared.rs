//! Stores that threads share, as a user would: this one by the host's `Shared` and its snapshots, and LMDB.

use crate::black_box::black_box;
use crate::contenders::lmdb::Threads;
use crate::contenders::ours::Ours;
use crate::contenders::Contender;
use crate::measures::threads::UPDATES_A_TRIAL;
use crate::workload::{Shape, Source};
use pit_host::{ByteOffset, Handle, Line, Log, PageIndex, Shared, Snapshot, Store};
use std::fmt::Debug;

/// Views pages, all of one version: the newest when it is called.
pub type Views<'a> = Box<dyn FnMut(&[usize]) + 'a>;

/// A store that threads write.
pub trait Writing: Sync {
    /// One whole update.
    fn update(&self, first: usize, bytes: &[u8]);

    /// Returns when all that was written is where it is to be kept. Not timed.
    fn settle(&self) {}
}

/// A store that threads write and read.
pub trait Sharing: Writing {
    /// What a reader thread views by.
    fn reader(&self) -> Views<'_>;

    /// The newest version's first pages, copied: to be checked.
    fn copied(&self, pages: usize) -> Vec<u8>;
}

const LIVE: Line = Line(0);
const ACCEPTED: &str = "the store accepts the call";

/// One whole update of the store of this repository, wherever its changes are kept.
pub fn update<L: Log>(store: &Handle<L>, page_size: usize, first: usize, bytes: &[u8])
where
    L::Failure: Debug,
{
    let pages: Vec<&[u8]> = bytes.chunks_exact(page_size).collect();
    let updated = store.update(LIVE, PageIndex(first as u64), &pages);
    black_box(updated.expect(ACCEPTED));
}

/// By what a reader of this store views.
#[derive(Clone, Copy)]
pub enum By {
    /// One RECENT, then a call of the store a page, under its lock.
    Store,
    /// A snapshot that advances, and looks each page up under the store's lock.
    Snapshot,
    /// The same, filled: it knows where each page lies, and takes no lock.
    Filled,
}

/// The store of this repository.
pub struct OursShared {
    page_size: usize,
    shared: Shared,
    standing: Store,
}

impl OursShared {
    /// With the updates that stand, and room for those of a trial.
    pub fn new(shape: &Shape, source: &Source) -> OursShared {
        let mut ours = Ours::with_room(shape, UPDATES_A_TRIAL);
        ours.updates(&shape.standing(), source);
        let standing = ours.into_store();
        OursShared {
            page_size: shape.page_size,
            shared: Shared::new(standing.clone()),
            standing,
        }
    }

    /// Back to the updates that stand.
    pub fn begin_anew(&mut self) {
        self.shared = Shared::new(self.standing.clone());
    }

    /// The same for readers of a sort.
    pub fn read_by(&self, by: By) -> OursBy<'_> {
        OursBy { ours: self, by }
    }

    fn snapshot(&self) -> Snapshot {
        let newest = self.shared.recent(LIVE).expect(ACCEPTED);
        self.shared.snapshot(LIVE, newest).expect(ACCEPTED)
    }

    fn views_by_store(&self) -> Views<'_> {
        Box::new(|pages| {
            let version = self.shared.recent(LIVE).expect(ACCEPTED);
            for &page in pages {
                let look = |bytes: &[u8]| {
                    black_box(bytes);
                };
                let page = PageIndex(page as u64);
                let view = self.shared.with_view(LIVE, version, page, look);
                view.expect(ACCEPTED);
            }
        })
    }
}

fn views_by(mut snapshot: Snapshot) -> Views<'static> {
    Box::new(move |pages| {
        snapshot.advance().expect(ACCEPTED);
        for &page in pages {
            black_box(snapshot.view(PageIndex(page as u64)).expect(ACCEPTED));
        }
    })
}

/// The store of this repository, for readers of a sort.
pub struct OursBy<'a> {
    ours: &'a OursShared,
    by: By,
}

impl Writing for OursBy<'_> {
    fn update(&self, first: usize, bytes: &[u8]) {
        update(&self.ours.shared, self.ours.page_size, first, bytes);
    }
}

impl Sharing for OursBy<'_> {
    fn reader(&self) -> Views<'_> {
        match self.by {
            By::Store => self.ours.views_by_store(),
            By::Snapshot => views_by(self.ours.snapshot()),
            By::Filled => views_by(self.ours.snapshot().filled().expect(ACCEPTED)),
        }
    }

    fn copied(&self, pages: usize) -> Vec<u8> {
        let mut snapshot = self.ours.snapshot();
        if matches!(self.by, By::Filled) {
            snapshot = snapshot.filled().expect(ACCEPTED);
        }
        let mut copy = vec![0; pages * self.ours.page_size];
        snapshot.read(ByteOffset(0), &mut copy).expect(ACCEPTED);
        copy
    }
}

/// LMDB: a read transaction a reader, renewed for each version; a write transaction an update.
pub struct LmdbShared<'a> {
    pub page_size: usize,
    pub database: Threads<'a>,
}

impl Writing for LmdbShared<'_> {
    fn update(&self, first: usize, bytes: &[u8]) {
        let pages = bytes.chunks_exact(self.page_size);
        self.database.write(first, pages);
    }
}

impl Sharing for LmdbShared<'_> {
    fn reader(&self) -> Views<'_> {
        let mut reader = self.database.reader();
        Box::new(move |pages| {
            reader.each(pages, |bytes| {
                black_box(bytes);
            })
        })
    }

    fn copied(&self, pages: usize) -> Vec<u8> {
        let (mut copy, all) = (Vec::new(), (0..pages).collect::<Vec<_>>());
        let look = |bytes: &[u8]| copy.extend_from_slice(bytes);
        self.database.reader().each(&all, look);
        copy
    }
}
