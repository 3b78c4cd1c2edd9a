//! What is said above the table: of the machine, the contenders and the buffers.

use crate::contenders::in_work::IN_WORK;
use crate::contenders::lmdb;
use crate::measures::threads::{PAGES_A_VERSION, UPDATES_A_SECOND, UPDATES_A_TRIAL};
use crate::measures::timing::ROUNDS;
use crate::numbers::with_commas;
use std::fs;
use std::path::Path;

/// What stands above the table.
pub fn text(disk: &Path) -> String {
    format!(
        "\
Pit model store: benchmarks.

Processor  {}; caches of one: {}. Disk: {}.
Against    memcpy: the same bytes copied from or to one run of memory, no versions. VIEW's is that of a whole page.
           Arc: a table of all pages for each version, each page behind an Arc, the table copied by each update.
           {}: a value a page, a write transaction an update, one read transaction for all reads; no sync,
           write map, in a memory file system. It keeps the newest version only.
Times      in nanoseconds a call, on one thread: the median of pieces timed in {ROUNDS} rounds, in which all take turns.
           Calls follow each other at once, so the processor may begin one before the last is done.
Buffers    All memory has been touched before: page area, heap, LMDB's file. READ and memcpy copy random pages of the
           newest version, in the cache only as far as the whole blob fits, to one page that is in the cache.
           VIEW gives a page's slice and touches no byte of it. An update's bytes come from 128 pages in the cache.
           READ of several pages: those that follow a random one. Ours and memcpy in one call, the others page by page.
Blob       Filled by appends of 64 pages, then writes of one random page up to the number of updates. Updates are
           timed on top of these, 64 at random places; then ours and Arc go back to just these for the next round.
In work    Updates beside {IN_WORK} tickets: each is woven but for its last node, and then the oldest in work gets its last
           node and is published. So an update has the same calls, and always {IN_WORK} versions between it and the last
           published one. No other contender has such a state.
Lines      Of 16 lines 15 begin when the blob is filled on line 0; then updates go to all lines in turn. Reads
           go to one of them, or to all at random; alone is the store with one line.
Stamps     STAMP of one page in the newest version, again and again: the page is written once, when the blob is filled, and
           then resent unchanged by so many of the updates after that, spread evenly. The others write other pages.
Threads    Readers view random pages, {PAGES_A_VERSION} of one version and then of the newest: by calls, one RECENT and a call of the
           host's Shared a page; by a snapshot that advances for these {PAGES_A_VERSION}, as it is or filled; LMDB in one read transaction
           a reader, renewed for these {PAGES_A_VERSION}. Where there is a writer, it makes {} updates of one page a second, or
           flat out {} as fast as it can, which is all the room there is; then the store is put back. Ours writes by
           one call an update. Views count while the writer writes.
Waits      All room of the largest store is taken. A reader and a writer call it every so often, while nothing is saved, while
           a copy is that nobody shares, and while the store itself is. What the last adds is waited for.
Synced     Updates on a disk, at random places. Ours in a folder, by its policy: with one call an update the first two are the
           same, by the third a power cut may take the last 10 ms. LMDB with sync, writing by system calls and through
           its map; the faster is compared with. The plain file gets the update's bytes at its end, and is synced.
Recovery   A folder's saved store has the blob of 4,096 pages of 4,096 bytes, its journal the updates since. Files are read
           from memory: they have just been written.
bytes      Memory that a version takes, of an update of so many pages, without those pages' own bytes.
o/..       Ours as a multiple of the other: below 1, ours takes less.
",
        processor(),
        caches(),
        file_system(disk),
        lmdb::version(),
        with_commas(UPDATES_A_SECOND as usize),
        with_commas(UPDATES_A_TRIAL),
    )
}

fn processor() -> String {
    let about = fs::read_to_string("/proc/cpuinfo").unwrap_or_default();
    let names: Vec<&str> = about
        .lines()
        .filter_map(|line| line.strip_prefix("model name")?.split_once(": "))
        .map(|(_, name)| name)
        .collect();
    match names.first() {
        Some(name) => format!("{name}, {} of them", names.len()),
        None => "unknown".into(),
    }
}

/// The file system that a folder is in: of the last mount whose place leads to it, among the longest such.
fn file_system(folder: &Path) -> String {
    let folder = folder.canonicalize().unwrap_or_default();
    let mounts = fs::read_to_string("/proc/self/mounts").unwrap_or_default();
    let of_line = |line: &str| {
        let mut words = line.split(' ').skip(1);
        let (place, kind) = (words.next()?, words.next()?);
        let leads_there = folder.starts_with(place);
        leads_there.then(|| (place.len(), kind.to_string()))
    };
    let found = mounts.lines().filter_map(of_line);
    let longest = found.max_by_key(|(length, _)| *length);
    longest.map_or("unknown".into(), |(_, kind)| kind)
}

/// The sizes of the first processor's caches of data, from the nearest.
fn caches() -> String {
    let mut sizes = Vec::new();
    for index in 0..8 {
        let of = |what: &str| {
            let file = format!("/sys/devices/system/cpu/cpu0/cache/index{index}/{what}");
            fs::read_to_string(file)
                .unwrap_or_default()
                .trim()
                .to_string()
        };
        if !["", "Instruction"].contains(&of("type").as_str()) {
            sizes.push(of("size"));
        }
    }
    match sizes.is_empty() {
        true => "unknown".into(),
        false => sizes.join(", "),
    }
}
