//! The longest that a call takes while the largest store is saved to a disk.
//!
//! A reader calls every so often, and a writer too: a reader may have to wait for a writer that waits for the save. They pause
//! between calls so that a processor is free for them. The writer's call is a PUBLISH with nothing to publish: it takes the
//! store's lock as every writer's call does, and can be made in a full store.
//!
//! A call may also be interrupted, by the work of the save and by other processes. So the same is measured while nothing is
//! saved, and while a copy of the store is that nobody shares: what is longer beside the store's own save than beside the
//! copy's is waited for.

use crate::black_box::black_box;
use crate::measures::scratch::Scratch;
use crate::workload::Source;
use pit_host::{FileError, Limits, Line, Minute, PageIndex, Shared, Snapshot, Store, Version};
use std::path::Path;
use std::sync::atomic::{AtomicBool, Ordering::Relaxed};
use std::time::{Duration, Instant};
use std::{fs, thread};

const LIVE: Line = Line(0);
const ACCEPTED: &str = "the store accepts the call";

/// So many saves beside each sort of reader.
const SAVES: usize = 3;
/// Reader and writer pause so long between calls.
const PAUSE: Duration = Duration::from_micros(20);

/// The largest store has just so many nodes that all its room is taken by updates of 16 pages in a blob of 32, 32 nodes each.
const PAGE_SIZE: usize = 4_096;
const PAGES: u64 = 65_535;
const NODES: u64 = 131_072;
const UPDATES: u64 = 4_096;
const OF_UPDATE: u64 = 16;
const BLOB: u64 = 2 * OF_UPDATE;
/// So many of these updates take little of the room.
pub const FEW: u64 = 16;

/// What runs beside the calls: nothing, for as long as a save takes; the save of a copy; the store's own.
pub const BESIDE: [&str; 3] = ["nothing", "a copy's save", "its save"];

/// The longest times of a sort of call, one of each save.
pub struct Longest {
    pub call: &'static str,
    pub beside: [Vec<Duration>; BESIDE.len()],
}

impl Longest {
    fn of(call: &'static str) -> Longest {
        let beside = BESIDE.map(|_| Vec::new());
        Longest { call, beside }
    }

    pub fn beside_its_save(&self) -> &[Duration] {
        let [_, _, own] = &self.beside;
        own
    }
}

/// A save: how long it took, and how long the file is.
#[derive(Clone, Copy)]
pub struct Saved {
    pub took: Duration,
    pub bytes: u64,
}

/// What was measured: the calls, the last save of the full store, and one of a store with the same limits and few updates.
pub struct Latencies {
    pub calls: Vec<Longest>,
    pub full: Saved,
    pub few: Saved,
}

/// A call that a reader makes, of a page.
type Call<'a> = &'a (dyn Fn(PageIndex) + Sync);

/// All that is measured, with the files on this disk.
pub fn measure(disk: &Path) -> Latencies {
    let scratch = Scratch::new(disk, "saving");
    let (place, shared) = (scratch.path("full"), store_of(UPDATES));
    let full = saved(&place, || shared.save(&place));
    let copy = shared.to_store();
    let loaded = Store::load(&place).expect("the file is whole");
    assert!(loaded == copy, "the file holds the store");
    drop(loaded);
    let beside: Beside<'_> = [
        &|| thread::sleep(full.took),
        &|| done(copy.save(&place)),
        &|| done(shared.save(&place)),
    ];
    let calls = calls_beside(beside, &shared);
    let (place, shared) = (scratch.path("few"), store_of(FEW));
    let few = saved(&place, || shared.save(&place));
    Latencies { calls, full, few }
}

/// A store of the largest limits after so many updates.
fn store_of(updates: u64) -> Shared {
    let limits = Limits::new(PAGE_SIZE as u64, PAGES, NODES, UPDATES);
    let shared = Shared::new(Store::format(limits).expect("the limits are accepted"));
    let source = Source::new(PAGE_SIZE);
    for k in 0..updates {
        let pages = OF_UPDATE.min(PAGES - k * OF_UPDATE); // of the very last update, one fewer
        let bytes = source.bytes(k as usize, pages as usize);
        let pages: Vec<&[u8]> = bytes.chunks_exact(PAGE_SIZE).collect();
        let first = PageIndex(k * OF_UPDATE % BLOB);
        shared.update(LIVE, first, &pages).expect(ACCEPTED);
    }
    shared
}

fn done(save: Result<Version, FileError>) {
    save.expect("the store is saved");
}

/// A save to this place.
fn saved(place: &Path, save: impl FnOnce() -> Result<Version, FileError>) -> Saved {
    let begin = Instant::now();
    done(save());
    let took = begin.elapsed();
    let bytes = fs::metadata(place).expect("the file is there").len();
    Saved { took, bytes }
}

/// What runs beside the calls.
type Beside<'a> = [&'a dyn Fn(); BESIDE.len()];

/// The longest times of readers of each sort, and of the writer.
fn calls_beside(beside: Beside<'_>, shared: &Shared) -> Vec<Longest> {
    let newest = shared.recent(LIVE).expect(ACCEPTED);
    let snapshot = || shared.snapshot(LIVE, newest).expect(ACCEPTED);
    let (unfilled, filled) = (snapshot(), snapshot().filled().expect(ACCEPTED));
    let view = |snapshot: &Snapshot, page| {
        black_box(snapshot.view(page).expect(ACCEPTED));
    };
    let look = |bytes: &[u8]| {
        black_box(bytes);
    };
    let with_view = |page| shared.with_view(LIVE, newest, page, look).expect(ACCEPTED);
    let readers: [(_, Call<'_>); 3] = [
        ("Shared::with_view", &with_view),
        ("Snapshot::view", &|page| view(&unfilled, page)),
        ("the same, filled", &|page| view(&filled, page)),
    ];
    let mut calls = Vec::new();
    let mut writer = Longest::of("PUBLISH of a writer");
    for (name, call) in readers {
        let mut reader = Longest::of(name);
        watch(beside, shared, call, [&mut reader, &mut writer]);
        calls.push(reader);
    }
    calls.push(writer);
    calls
}

/// A reader of one sort and the writer, beside each in turn.
fn watch(beside: Beside<'_>, shared: &Shared, call: Call<'_>, rows: [&mut Longest; 2]) {
    let [reader, writer] = rows;
    for at in (0..SAVES * beside.len()).map(|k| k % beside.len()) {
        let [read, written] = longest_while(shared, call, beside[at]);
        reader.beside[at].push(read);
        writer.beside[at].push(written);
    }
}

/// The longest times of a reader's and a writer's calls while this runs.
fn longest_while(shared: &Shared, call: Call<'_>, piece: impl FnOnce()) -> [Duration; 2] {
    let is_over = AtomicBool::new(false);
    let read = |k| call(PageIndex(k % BLOB));
    let write = |_| {
        let published = shared.publish(LIVE, Minute(0)).expect(ACCEPTED);
        assert!(published.version().is_none(), "all is published");
    };
    thread::scope(|threads| {
        let is_over = &is_over;
        let reading = threads.spawn(move || longest_until(is_over, read));
        let writing = threads.spawn(move || longest_until(is_over, write));
        piece();
        is_over.store(true, Relaxed);
        [reading, writing].map(|thread| thread.join().expect("the thread ends well"))
    })
}

/// The longest time of a call, made again and again with a pause between.
fn longest_until(is_over: &AtomicBool, call: impl Fn(u64)) -> Duration {
    let mut longest = Duration::ZERO;
    for k in 0.. {
        if is_over.load(Relaxed) {
            break;
        }
        thread::sleep(PAUSE);
        let begin = Instant::now();
        call(k);
        longest = longest.max(begin.elapsed());
    }
    longest
}
