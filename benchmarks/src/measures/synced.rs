//! Updates that are on a disk when they return: this store in a folder, by each policy, and LMDB with sync, all on one disk.
//!
//! Beside them a plain file, to whose end an update's bytes are written and then synced: no store can do with less. By the
//! third policy an update returns when it is written, and is synced within 10 ms: a power cut may take it, the end of a process
//! does not. That sync is waited for after a turn, so that it falls into nobody's time.

use crate::contenders::durable::{OursDurable, PlainFile};
use crate::contenders::lmdb::Commit;
use crate::contenders::lmdb_pages::LmdbPages;
use crate::contenders::shared::{Sharing, Writing};
use crate::contenders::Contender;
use crate::measures::scratch::Scratch;
use crate::measures::timing::median;
use crate::workload::{Source, Update, MOST, TARGET_SHAPE as SHAPE};
use pit_host::SyncAt;
use std::path::Path;
use std::sync::Barrier;
use std::thread;
use std::time::{Duration, Instant};

/// The contenders, in the table's order.
pub const NAMES: [&str; 6] = [
    "each call",
    "each publish",
    "every 10 ms",
    "LMDB",
    "LMDB, map",
    "plain file",
];
const CONTENDERS: usize = NAMES.len();
/// The first of them are this store, by policy.
const POLICIES: [SyncAt; OURS] = [
    SyncAt::EachCall,
    SyncAt::EachPublish,
    SyncAt::Every(Duration::from_millis(10)),
];
pub const OURS: usize = 3;
/// LMDB, writing by system calls and through its map.
const LMDB: [usize; 2] = [3, 4];

const ROUNDS: usize = 16;
/// A turn of one thread has so many updates, each timed by itself.
const OF_ONE: usize = 8;
/// So many threads have so many updates each in a turn, of one page, each thread on pages of its own.
pub const THREADS: usize = 8;
const OF_EACH: usize = 16;

/// What is measured: updates of so many pages by one thread, or of one page by many threads.
#[derive(Clone, Copy, PartialEq, Eq)]
pub enum What {
    One(usize),
    Many,
}

/// A row: seconds an update.
pub struct Row {
    pub what: What,
    pub seconds: [f64; CONTENDERS],
}

impl Row {
    /// Ours as a multiple of LMDB's, of the faster of the two.
    pub fn ratio(&self, ours: usize) -> f64 {
        let [by_calls, by_map] = LMDB.map(|at| self.seconds[at]);
        self.seconds[ours] / by_calls.min(by_map)
    }
}

type Contenders<'a> = [&'a dyn Writing; CONTENDERS];

/// The rows, with the files on this disk.
pub fn rows(disk: &Path) -> Vec<Row> {
    let scratch = Scratch::new(disk, "synced");
    let source = Source::new(SHAPE.page_size);
    // for all rounds of all rows: a store in a folder does not go back
    let room = ROUNDS * (OF_ONE * (1 + 8 + MOST) + THREADS * OF_EACH);
    let folder = |k: usize| {
        let path = scratch.path(&format!("folder-{k}"));
        OursDurable::new(path, POLICIES[k], &SHAPE, room)
    };
    let database = |name, commit| {
        let mut database = LmdbPages::on_disk(&SHAPE, &scratch.path(name), commit);
        database.updates(&SHAPE.standing(), &source);
        database
    };
    let ours = [0, 1, 2].map(folder);
    let mut by_calls = database("lmdb", Commit::Synced);
    let mut by_map = database("lmdb-map", Commit::SyncedMap);
    let (by_calls, by_map) = (by_calls.shared(), by_map.shared());
    let plain = PlainFile::new(&scratch.path("plain"));
    let contenders: Contenders<'_> = [&ours[0], &ours[1], &ours[2], &by_calls, &by_map, &plain];

    let whats = [What::One(1), What::One(8), What::One(64), What::Many];
    let rows = whats.map(|what| row(what, contenders, &source));
    let right = by_calls.copied(SHAPE.blob);
    assert!(by_map.copied(SHAPE.blob) == right, "LMDB holds the pages");
    for ours in ours {
        let (ours, _) = ours.close().open();
        assert!(ours.copied(SHAPE.blob) == right, "the folder holds them");
    }
    rows.into()
}

/// The median of each contender's times. In each round every contender has its turn, and another is first.
fn row(what: What, contenders: Contenders<'_>, source: &Source) -> Row {
    let mut times = [(); CONTENDERS].map(|()| Vec::new());
    for round in 0..ROUNDS {
        for place in 0..CONTENDERS {
            let at = (round + place) % CONTENDERS;
            let (store, seed) = (contenders[at], 20 + round as u64);
            match what {
                What::One(pages) => one_turn(store, &updates(seed, OF_ONE, pages), source)
                    .for_each(|time| times[at].push(time)),
                What::Many => times[at].push(turn_of_many(store, seed, source)),
            }
            store.settle();
        }
    }
    Row {
        what,
        seconds: times.map(median),
    }
}

fn updates(seed: u64, count: usize, pages: usize) -> Vec<Update> {
    SHAPE.random_updates(seed, count, pages)
}

fn timed(piece: impl FnOnce()) -> f64 {
    let begin = Instant::now();
    piece();
    begin.elapsed().as_secs_f64()
}

/// The seconds of each update of one thread.
fn one_turn<'a>(
    store: &'a dyn Writing,
    updates: &'a [Update],
    source: &'a Source,
) -> impl Iterator<Item = f64> + 'a {
    let update = |(k, update): (usize, &Update)| {
        timed(|| store.update(update.first, source.bytes(k, update.pages)))
    };
    updates.iter().enumerate().map(update)
}

/// Seconds an update, of threads that begin together, until the last has ended.
fn turn_of_many(store: &dyn Writing, seed: u64, source: &Source) -> f64 {
    let start = &Barrier::new(THREADS + 1);
    let share = SHAPE.blob / THREADS;
    let write = |thread: usize| {
        let updates = updates(seed + (ROUNDS * thread) as u64, OF_EACH, 1);
        start.wait();
        for (k, update) in updates.iter().enumerate() {
            let first = thread * share + update.first % share;
            store.update(first, source.bytes(k, 1));
        }
    };
    let write = &write;
    let seconds = thread::scope(|threads| {
        let writing: Vec<_> = (0..THREADS)
            .map(|thread| threads.spawn(move || write(thread)))
            .collect();
        start.wait();
        timed(|| {
            for thread in writing {
                thread.join().expect("the thread ends well");
            }
        })
    });
    seconds / (THREADS * OF_EACH) as f64
}
