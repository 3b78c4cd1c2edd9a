//! How long a folder takes to open, by the length of its journal.
//!
//! The saved store is the same in all rows, of the largest limits and with the blob filled; then come so many updates of random
//! pages. The files have just been written, so they are read from memory: a disk's time to read them comes on top.

use crate::contenders::durable::OursDurable;
use crate::contenders::shared::Writing;
use crate::measures::scratch::Scratch;
use crate::measures::timing::median;
use crate::workload::{Shape, Source};
use pit_host::SyncAt;
use std::path::Path;
use std::time::{Duration, Instant};

/// The blob is full after 64 updates.
const SHAPE: Shape = Shape {
    page_size: 4_096,
    blob: 4_096,
    updates: 64,
};

/// How many updates, of how many pages each. Those of 16 pages begin at multiples of 16, since others take more nodes.
const JOURNALS: [(usize, usize); 7] = [
    (0, 1),
    (100, 1),
    (1_000, 1),
    (4_000, 1),
    (100, 16),
    (1_000, 16),
    (3_000, 16),
];

const OPENINGS: usize = 5;

/// A journal, and what it takes to open a folder with it.
pub struct Row {
    pub updates: usize,
    pub pages: usize,
    pub bytes: u64,
    pub entries: u64,
    pub seconds: f64,
}

/// The rows, with the folders on this disk.
pub fn rows(disk: &Path) -> Vec<Row> {
    let scratch = Scratch::new(disk, "recovery");
    JOURNALS
        .map(|(updates, pages)| row(&scratch, updates, pages))
        .into()
}

fn row(scratch: &Scratch, updates: usize, pages: usize) -> Row {
    let path = scratch.path(&format!("{updates}-{pages}"));
    let all_room = 65_535 - SHAPE.blob;
    let sync = SyncAt::Every(Duration::from_millis(10));
    let mut store = OursDurable::new(path, sync, &SHAPE, all_room);
    let source = Source::new(SHAPE.page_size);
    for (k, update) in SHAPE.random_updates(5, updates, pages).iter().enumerate() {
        let first = update.first / pages * pages;
        store.update(first, source.bytes(k, pages));
    }
    let (bytes, right) = (store.journal(), store.copied(SHAPE.blob));
    let (mut times, mut entries) = (Vec::new(), 0);
    for _ in 0..OPENINGS {
        let closed = store.close();
        let begin = Instant::now();
        let (opened, about) = closed.open();
        times.push(begin.elapsed().as_secs_f64());
        (store, entries) = (opened, about.entries);
    }
    assert!(store.copied(SHAPE.blob) == right, "nothing is lost");
    Row {
        updates,
        pages,
        bytes,
        entries,
        seconds: median(times),
    }
}
