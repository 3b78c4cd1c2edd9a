//! What opening cuts off a journal: where whole entries are in it, it is kept beside. And however long it is, little memory is taken.

use crate::folder::Folder;
use crate::support::entries::entries;
use crate::support::process::in_a_process;
use pit_host::{inspect, Cut, Durable, Limits, Opened, Options, Store, SyncAt, Ticket};
use std::fs::{self, OpenOptions};
use std::os::unix::fs::{FileExt, MetadataExt};
use std::time::{Duration, Instant};

const ENTRIES: u64 = 20;

/// Nothing is synced, so that anything may be gone after a power cut.
fn options() -> Options {
    let later = SyncAt::Every(Duration::from_secs(1 << 20));
    Options::new().checkpoint_at(0).sync(later)
}

/// A folder as a killed process leaves it, and the bytes of its journal up to the end of the entries.
fn killed(place: &Folder) -> Vec<u8> {
    let store = Store::format(Limits::new(16, 64, 512, 64)).unwrap();
    let durable = Durable::create(&place.0, store, options()).unwrap();
    for ticket in (1..=ENTRIES / 2).map(Ticket) {
        assert_eq!(durable.begin(1).unwrap(), ticket);
        durable.put(ticket, 0, &[9; 16]).unwrap();
    }
    let files = place.files();
    drop(durable);
    place.set(&files);
    let mut journal = fs::read(place.path("journal-1")).unwrap();
    journal.truncate(entries(&journal).last().unwrap().end);
    assert_eq!(entries(&journal).len() as u64, ENTRIES);
    fs::write(place.path("journal-1"), &journal).unwrap();
    journal
}

fn opened(place: &Folder) -> (Durable, Opened) {
    Durable::open(&place.0, options()).unwrap()
}

/// The journal with its fifth entry damaged, and where that begins.
fn damaged(journal: &[u8]) -> (Vec<u8>, usize) {
    let begin = entries(journal)[4].begin;
    let mut damaged = journal.to_vec();
    damaged[begin + 30] ^= 1;
    (damaged, begin)
}

fn assert_cut(cut: &Cut, begin: usize, journal: &[u8]) {
    assert_eq!((cut.after, cut.offset), (4, begin as u64));
    assert_eq!(cut.bytes, (journal.len() - begin) as u64);
    assert_eq!((cut.whole, cut.torn), (ENTRIES - 5, false));
}

#[test]
fn whole_entries_that_are_cut_off_are_kept_beside() {
    let place = Folder::new("kept");
    let journal = killed(&place);
    let (damaged, begin) = damaged(&journal);
    for round in 1..=3 {
        fs::write(place.path("journal-1"), &damaged).unwrap();
        let _ = fs::remove_file(place.path("closed")); // as where it was not closed
        let seen = inspect(&place.0).unwrap().found.cut.unwrap();
        assert_cut(&seen, begin, &journal);
        assert_eq!(seen.kept, None);
        assert!(!seen.to_string().contains("kept"));

        let (durable, opened) = opened(&place);
        let (cut, name) = (opened.cut.unwrap(), format!("journal-1.cut-{round}"));
        assert_cut(&cut, begin, &journal);
        assert_eq!(cut.kept.as_deref(), Some(&name[..]));
        let words = format!("; what was cut off is kept in {name}");
        assert!(cut.to_string().ends_with(&words), "{cut}");
        assert!(fs::read(place.path(&name)).unwrap() == damaged[begin..]);
        let mode = fs::metadata(place.path(&name)).unwrap().mode();
        assert_eq!(mode & 0o777, 0o600);
        assert_eq!(durable.entries().0, 4);
    }
    // nothing removes them, and they are no journals
    let (durable, opened) = opened(&place);
    assert_eq!(opened.cut, None);
    durable.checkpoint().unwrap();
    drop(durable);
    let all = [
        "closed",
        "journal-1.cut-1",
        "journal-1.cut-2",
        "journal-1.cut-3",
        "journal-2",
        "lock",
        "store-2",
    ];
    assert_eq!(place.names(), all);
}

/// What is torn was never kept, and is no entry.
#[test]
fn what_has_no_whole_entries_is_not_kept() {
    let place = Folder::new("kept-torn");
    let journal = killed(&place);
    for cut_off in [1, 40] {
        fs::write(place.path("journal-1"), &journal[..journal.len() - cut_off]).unwrap();
        let _ = fs::remove_file(place.path("closed"));
        let cut = opened(&place).1.cut.unwrap();
        assert_eq!((cut.whole, cut.kept), (0, None));
        assert_eq!(place.names(), ["closed", "journal-1", "lock", "store-1"]);
    }
}

/// In kilobytes, the most memory that the process has had at once.
fn most_memory() -> u64 {
    let status = fs::read_to_string("/proc/self/status").unwrap();
    let line = status.lines().find(|line| line.starts_with("VmHWM:"));
    let number = line.unwrap().split_whitespace().nth(1);
    number.unwrap().parse().unwrap()
}

/// Looks at a folder and opens it, with little memory and in little time.
fn opened_with_little(place: &Folder) -> Cut {
    let (before, begun) = (most_memory(), Instant::now());
    let seen = inspect(&place.0).unwrap().found.cut.unwrap();
    let cut = opened(place).1.cut.unwrap();
    // the system counts by threads, and not to the page
    let more = most_memory().saturating_sub(before);
    let took = begun.elapsed();
    println!("{} bytes more: {more} kB, {took:?}", cut.bytes);
    assert!(more < 16 << 10, "{more} kB");
    assert!(took < Duration::from_secs(60), "{took:?}");
    assert_eq!((seen.offset, seen.bytes), (cut.offset, cut.bytes));
    cut
}

/// A journal with a hole behind its entries; and with an entry behind one of 4 GiB, of which a copy is kept with the hole in it.
#[test]
fn a_sparse_journal_takes_little_memory() {
    in_a_process("kept_cuts::opens_a_sparse_journal");
}

#[test]
#[ignore = "a part that another test runs in a process of its own"]
fn opens_a_sparse_journal() {
    const HOLES: [u64; 2] = [1 << 30, 4 << 30];
    let place = Folder::in_memory("kept-sparse");
    let journal = killed(&place);
    let path = place.path("journal-1");
    let length = journal.len() as u64;
    let file = OpenOptions::new().write(true).open(&path).unwrap();
    file.set_len(length + HOLES[0]).unwrap();
    let cut = opened_with_little(&place);
    assert_eq!((cut.offset, cut.bytes, cut.whole), (length, HOLES[0], 0));
    assert_eq!(cut.kept, None);

    fs::remove_file(place.path("closed")).unwrap();
    let last = entries(&journal).pop().unwrap();
    file.set_len(last.begin as u64).unwrap();
    let entry = &journal[last.begin..];
    let begin = last.begin as u64 + HOLES[1];
    file.write_all_at(entry, begin).unwrap();
    let cut = opened_with_little(&place);
    assert_eq!((cut.offset, cut.whole), (last.begin as u64, 1));
    let kept = fs::metadata(place.path(&cut.kept.unwrap())).unwrap();
    assert_eq!(kept.len(), HOLES[1] + entry.len() as u64);
    assert!(kept.blocks() * 512 < 1 << 20);
}
