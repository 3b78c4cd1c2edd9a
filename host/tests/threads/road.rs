//! A road model of eight pages, of which each version writes some that tell its number: so a reader knows what a version has to
//! be. One writer, and readers beside it.

use crate::differential::PAGE;
use pit_host::{ByteOffset, Error, Line, PageIndex, Shared, Snapshot, Version};
use std::sync::atomic::{AtomicBool, Ordering};
use std::thread;
use std::time::Duration;

pub const BLOB: u64 = 8;
const LIVE: Line = Line(0);

/// So often a writer waits for room: for longer than it takes to make some.
const MOST_PAUSES: u64 = 200_000;

/// The pages of each version, from version 0 on.
pub struct Road(Vec<Vec<[u8; PAGE]>>);

/// The first page of a version, and how many it writes.
fn written(version: u64) -> (u64, u64) {
    match version {
        1 => (0, BLOB),
        _ => (version % 5, 1 + version % 4),
    }
}

/// Lets others go on.
pub fn pause() {
    thread::sleep(Duration::from_micros(50));
}

fn page_of(version: u64) -> [u8; PAGE] {
    let mut page = [version as u8; PAGE];
    page[..8].copy_from_slice(&version.to_le_bytes());
    page
}

impl Road {
    /// One of so many versions.
    pub fn new(versions: u64) -> Road {
        let mut road = vec![vec![]];
        for version in 1..=versions {
            let mut pages = road[version as usize - 1].clone();
            let (first, n) = written(version);
            pages.resize(BLOB as usize, page_of(version));
            pages[first as usize..][..n as usize].fill(page_of(version));
            road.push(pages);
        }
        Road(road)
    }

    fn last(&self) -> u64 {
        self.0.len() as u64 - 1
    }

    /// Writes all versions; where the register is full, after somebody else has made room.
    pub fn write(&self, shared: &Shared) {
        for version in 1..=self.last() {
            let ((first, n), page) = (written(version), page_of(version));
            let pages = vec![&page[..]; n as usize];
            let update = || {
                let done = shared.update(LIVE, PageIndex(first), &pages);
                if done == Err(Error::RegisterFull) {
                    pause();
                    return None;
                }
                Some(done)
            };
            let done = (0..MOST_PAUSES).find_map(|_| update());
            assert_eq!(done, Some(Ok(Version(version))));
        }
    }

    /// A reader, until told to end, and once more: never an older version than before, and each whole.
    fn ride(&self, mut snapshot: Snapshot, ended: &AtomicBool) {
        let mut is_last = false;
        while !is_last {
            is_last = ended.load(Ordering::Acquire);
            let before = snapshot.version();
            snapshot.advance().expect("a line that has begun");
            assert!(before <= snapshot.version());
            self.is_whole(&snapshot);
            thread::yield_now();
        }
        assert_eq!(snapshot.version(), Version(self.last()));
    }

    /// A filled snapshot is whole; one that is not filled is, where its store is still there.
    fn is_whole(&self, snapshot: &Snapshot) {
        let due = &self.0[snapshot.version().0 as usize];
        let mut bytes = vec![0; due.len() * PAGE];
        match snapshot.read(ByteOffset(0), &mut bytes) {
            Err(Error::NotPublished) => return,
            read => assert_eq!((read, bytes), (Ok(()), due.concat())),
        }
        for (page, due) in (0..).map(PageIndex).zip(due) {
            match snapshot.view(page) {
                Err(Error::NotPublished) => return,
                view => assert_eq!(view, Ok(&due[..])),
            }
        }
    }

    /// The writer, three readers, two of them with filled snapshots, and whoever does something else until all is written.
    pub fn run(&self, shared: &Shared, other: impl Fn() + Sync) {
        let ended = &AtomicBool::new(false);
        thread::scope(|threads| {
            let readers = [true, true, false].map(|is_filled| {
                let snapshot = shared.snapshot(LIVE, Version(0));
                let mut snapshot = snapshot.expect("version 0");
                if is_filled {
                    snapshot = snapshot.filled().expect("version 0");
                }
                threads.spawn(move || self.ride(snapshot, ended))
            });
            let others = threads.spawn(|| {
                while !ended.load(Ordering::Acquire) {
                    other();
                }
            });
            let written = threads.spawn(|| self.write(shared)).join();
            ended.store(true, Ordering::Release); // also where the writer failed
            let read = readers.map(|reader| reader.join().is_ok());
            assert_eq!((written.is_ok(), read), (true, [true; 3]));
            assert!(others.join().is_ok());
        });
    }
}
