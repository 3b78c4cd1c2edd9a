//! Journals that threads write.

use super::scene::{Scratch, HEADER};
use crate::disk::file::FileError;
use crate::disk::journal::entry::{Content, Entry};
use crate::disk::journal::header::Header;
use crate::disk::journal::output::Output;
use crate::disk::journal::{Call, Journal, Replayed, SyncAt};
use std::fs::{self, File, OpenOptions};
use std::io::ErrorKind;
use std::path::Path;
use std::sync::atomic::{AtomicBool, Ordering};
use std::sync::Arc;
use std::thread;
use std::time::Duration;

const LATER: SyncAt = SyncAt::Every(Duration::from_secs(1 << 20));

fn new_file(path: &Path) -> File {
    let mut options = OpenOptions::new();
    options.read(true).write(true).create_new(true);
    options.open(path).unwrap()
}

fn begin(path: &Path, policy: SyncAt) -> Journal {
    Journal::begin(new_file(path), HEADER, policy).unwrap()
}

/// The header of a later journal.
fn header(generation: u64) -> Header {
    Header {
        generation,
        salt: generation,
        before: generation - 1,
        ..HEADER
    }
}

fn call(n: u64) -> Call<'static> {
    Call::Begin { n }
}

/// What is found of a whole journal, closed, whose last entry has this number.
fn found(path: &Path, last: u64) -> Replayed {
    Replayed {
        header: HEADER,
        last,
        noted: last,
        noted_end: (HEADER.first - 1, 64),
        call_end: 64,
        ended: false,
        length: fs::metadata(path).unwrap().len(),
        cut: None,
    }
}

/// The numbers and calls of a journal's entries, and the last note of what was synced. The file has nothing else.
fn entries_in(path: &Path, generation: u64) -> (Header, Vec<(u64, u64)>, u64) {
    let bytes = fs::read(path).unwrap();
    let header = Header::of(&bytes, generation).unwrap().unwrap();
    let (mut entries, mut synced, mut rest) = (Vec::new(), 0, &bytes[64..]);
    while let Some(entry) = Entry::at_front(rest, header.salt) {
        match entry.content().unwrap() {
            Content::Call(Call::Begin { n }) => entries.push((entry.number, n)),
            Content::Synced | Content::Ended => synced = entry.number,
            other => panic!("{other:?}"),
        }
        rest = &rest[entry.length()..];
    }
    assert!(rest.is_empty());
    (header, entries, synced)
}

/// Whether a journal, which has no pages, says at its end that another goes on after it.
fn has_ended(path: &Path) -> bool {
    let bytes = fs::read(path).unwrap();
    let salt = Header::of(&bytes, bytes[16].into()).unwrap().unwrap().salt;
    let note = Entry::at_front(&bytes[bytes.len() - 56..], salt);
    note.map_or(false, |note| note.content() == Ok(Content::Ended))
}

/// Takes and keeps so many entries, of which each says what was taken; every third shows something.
fn write(journal: &Journal, policy: SyncAt, count: u64) {
    for n in 0..count {
        journal.ready().unwrap();
        let number = journal.take(&call(n));
        let shows = n % 3 == 0;
        journal.keep(number, shows).unwrap();
        assert!(journal.written() >= number);
        let promised = match policy {
            SyncAt::EachCall => true,
            SyncAt::EachPublish => shows,
            SyncAt::Every(_) => false,
        };
        assert!(!promised || journal.synced() >= number);
    }
}

#[test]
fn threads_share_writes_and_syncs_and_every_entry_is_kept_in_order() {
    let scratch = Scratch::new("threads");
    let policies = [
        SyncAt::EachCall,
        SyncAt::EachPublish,
        SyncAt::Every(Duration::from_millis(1)),
    ];
    for (k, policy) in policies.into_iter().enumerate() {
        let path = scratch.file(&k.to_string());
        let journal = begin(&path, policy);
        thread::scope(|threads| {
            for _ in 0..4 {
                threads.spawn(|| write(&journal, policy, 150));
            }
        });
        assert_eq!(journal.written(), HEADER.first - 1 + 600);
        journal.sync().unwrap();
        assert_eq!(journal.synced(), journal.written());
        // behind it stands what was written ahead, until it is closed
        let (length, file) = (journal.length(), || fs::metadata(&path).unwrap().len());
        assert!(length < file());
        drop(journal);
        assert_eq!(length, file());
        let (header, entries, synced) = entries_in(&path, HEADER.generation);
        assert_eq!((header, synced), (HEADER, HEADER.first - 1 + 600));
        check_in_order(&entries, HEADER.first, 600);
    }
}

/// Checks that entries have the numbers from the first on, so many.
fn check_in_order(entries: &[(u64, u64)], first: u64, count: u64) {
    let numbers = entries.iter().map(|(number, _)| *number);
    assert!(numbers.eq(first..first + count));
}

#[test]
fn what_a_dropped_journal_has_taken_is_written_and_synced() {
    let scratch = Scratch::new("dropped");
    let path = scratch.file("journal");
    let journal = begin(&path, LATER);
    let numbers: Vec<u64> = (0..3).map(|n| journal.take(&call(n))).collect();
    assert_eq!(numbers, [41, 42, 43]);
    assert_eq!(journal.written(), 40);
    journal.keep(41, true).unwrap(); // writes all that are there
    assert_eq!((journal.written(), journal.synced()), (43, 40));
    journal.take(&call(3));
    drop(journal);
    let (_, entries, synced) = entries_in(&path, 3);
    assert_eq!(entries, [(41, 0), (42, 1), (43, 2), (44, 3)]);
    assert_eq!(synced, 44);
}

#[test]
fn what_nobody_waits_for_is_synced_in_the_background() {
    let scratch = Scratch::new("background");
    let journal = begin(&scratch.file("journal"), SyncAt::Every(Duration::ZERO));
    for n in 0..20 {
        let number = journal.take(&call(n));
        journal.keep(number, true).unwrap();
        while journal.synced() < number {
            thread::sleep(Duration::from_micros(100));
        }
    }
}

#[test]
fn a_journal_goes_on_where_it_ended() {
    let scratch = Scratch::new("resumed");
    let path = scratch.file("journal");
    drop(begin(&path, SyncAt::EachCall));
    for round in 0..3 {
        let file = OpenOptions::new().read(true).write(true).open(&path);
        let last = 40 + round;
        let found = found(&path, last);
        let journal = Journal::resume(file.unwrap(), &found, SyncAt::EachCall).unwrap();
        assert_eq!(fs::metadata(&path).unwrap().len(), found.length); // no second note
        assert_eq!((journal.written(), journal.synced()), (last, last));
        let number = journal.take(&call(round));
        journal.keep(number, false).unwrap();
    }
    let (_, entries, synced) = entries_in(&path, 3);
    assert_eq!((entries, synced), (vec![(41, 0), (42, 1), (43, 2)], 43));
}

#[test]
fn the_next_journal_goes_on_under_load() {
    let scratch = Scratch::new("switched");
    let path = |generation: u64| scratch.file(&format!("journal-{generation}"));
    let policy = SyncAt::EachPublish;
    let journal = begin(&path(3), policy);
    let ended = AtomicBool::new(false);
    let last = thread::scope(|threads| {
        let switching = threads.spawn(|| {
            let mut generation = 3;
            while !ended.load(Ordering::Acquire) && generation < 40 {
                generation += 1;
                journal.switch(new_file(&path(generation)), header(generation));
                journal.settle().unwrap();
                assert!(journal.synced() <= journal.written());
            }
            generation
        });
        let writers = [(); 3].map(|()| threads.spawn(|| write(&journal, policy, 200)));
        let written = writers.map(|writer| writer.join());
        ended.store(true, Ordering::Release);
        assert!(written.iter().all(|end| end.is_ok()));
        switching.join().unwrap()
    });
    drop(journal);
    let mut next = HEADER.first;
    for generation in 3..=last {
        let (header, entries, _) = entries_in(&path(generation), generation);
        assert_eq!(header.first, next);
        assert_eq!(has_ended(&path(generation)), generation < last);
        check_in_order(&entries, next, entries.len() as u64);
        next += entries.len() as u64;
    }
    assert_eq!(next, HEADER.first + 600);
}

/// Several switches may come before the next write; each journal gets its own entries.
#[test]
fn switches_wait_for_no_disk_and_are_done_in_turn() {
    let scratch = Scratch::new("turns");
    let path = |generation: u64| scratch.file(&generation.to_string());
    let journal = begin(&path(3), SyncAt::EachCall);
    journal.take(&call(1));
    journal.switch(new_file(&path(4)), header(4));
    journal.switch(new_file(&path(5)), header(5));
    journal.take(&call(2));
    let number = journal.take(&call(3));
    for generation in [4, 5] {
        assert_eq!(fs::metadata(path(generation)).unwrap().len(), 0);
    }
    assert_eq!((journal.written(), journal.length()), (40, 64));
    journal.keep(number, false).unwrap();
    drop(journal);
    assert_eq!(entries_in(&path(3), 3).1, [(41, 1)]);
    assert_eq!(entries_in(&path(4), 4).1, []);
    let (header, entries, synced) = entries_in(&path(5), 5);
    assert_eq!((header.first, synced), (42, 43));
    assert_eq!(entries, [(42, 2), (43, 3)]);
}

/// A switch with nothing after it is done by `settle`, which waits for both files.
#[test]
fn a_settled_switch_has_synced_what_was_before_it() {
    let scratch = Scratch::new("settled");
    let path = |generation: u64| scratch.file(&generation.to_string());
    let journal = begin(&path(3), SyncAt::Every(Duration::from_millis(1)));
    let number = journal.take(&call(1));
    journal.switch(new_file(&path(4)), header(4));
    journal.settle().unwrap();
    assert_eq!((journal.written(), journal.synced()), (number, number));
    assert_eq!(entries_in(&path(4), 4).0.first, number + 1);
    journal.settle().unwrap();
    assert_eq!(journal.length(), 64);
}

fn refused(result: Result<(), FileError>) -> String {
    match result {
        Err(FileError::JournalFailed { words, .. }) => words,
        other => panic!("{other:?}"),
    }
}

/// What was taken is on the disk, and whoever takes more is told.
#[test]
fn a_journal_that_is_closed_takes_no_more() {
    let scratch = Scratch::new("closed");
    let every = SyncAt::Every(Duration::from_millis(1));
    for (k, policy) in [SyncAt::EachCall, LATER, every].into_iter().enumerate() {
        let path = scratch.file(&k.to_string());
        let journal = begin(&path, policy);
        assert_eq!([0, 1, 2].map(|n| journal.take(&call(n))), [41, 42, 43]);
        let closed = journal.close().unwrap();
        let length = fs::metadata(&path).unwrap().len();
        assert_eq!((closed.header, closed.last), (HEADER, 43));
        assert_eq!(closed.length, length);
        assert_eq!((journal.written(), journal.synced()), (43, 43));
        let is_closed = |result| matches!(result, Err(FileError::Closed));
        assert!(is_closed(journal.ready()));
        let number = journal.take(&call(4));
        assert!(is_closed(journal.keep(number, true)));
        assert!(is_closed(journal.sync()));
        journal.keep(43, true).unwrap();
        assert_eq!(journal.close().unwrap(), closed);
        drop(journal);
        assert_eq!(fs::metadata(&path).unwrap().len(), length);
        let (_, entries, synced) = entries_in(&path, 3);
        assert_eq!((entries, synced), (vec![(41, 0), (42, 1), (43, 2)], 43));
    }
}

/// Each entry whose writer was told that it is kept is there, and nothing is written after the close.
#[test]
fn a_journal_is_closed_under_load() {
    let scratch = Scratch::new("closed-load");
    for (k, policy) in [SyncAt::EachCall, SyncAt::Every(Duration::ZERO)]
        .into_iter()
        .enumerate()
    {
        let path = scratch.file(&k.to_string());
        let journal = begin(&path, policy);
        let (kept, closed) = thread::scope(|threads| {
            let kept = || {
                let numbers = (0..).map(|n| journal.take(&call(n)));
                let kept = numbers.take_while(|number| journal.keep(*number, true).is_ok());
                kept.last().unwrap_or(0)
            };
            let writers = [(); 3].map(|()| threads.spawn(kept));
            while journal.synced() < 100 {
                thread::yield_now();
            }
            let closed = journal.close().unwrap();
            assert_eq!(fs::metadata(&path).unwrap().len(), closed.length);
            let kept = writers.map(|writer| writer.join().unwrap());
            (kept.into_iter().max().unwrap(), closed)
        });
        assert!(kept <= closed.last);
        assert_eq!(fs::metadata(&path).unwrap().len(), closed.length);
        let (_, entries, _) = entries_in(&path, 3);
        check_in_order(&entries, 41, closed.last - 40);
        assert_eq!(journal.close().unwrap(), closed);
    }
}

/// A failure is told also by closing, and nothing more is written.
#[test]
fn a_journal_that_has_failed_is_closed_with_its_failure() {
    let journal = never_synced(SyncAt::EachCall);
    let number = journal.take(&call(1));
    let words = refused(journal.keep(number, true));
    for _ in 0..2 {
        assert_eq!(refused(journal.close().map(drop)), words);
    }
    let journal = never_synced(SyncAt::EachPublish);
    journal.take(&call(1));
    refused(journal.close().map(drop));
    refused(journal.ready());
}

/// A file that can only be read stands for one that fails.
#[test]
fn the_first_failed_write_is_final() {
    let scratch = Scratch::new("failed");
    let path = scratch.file("journal");
    drop(begin(&path, SyncAt::EachCall));
    for policy in [SyncAt::EachCall, SyncAt::EachPublish, LATER] {
        let file = File::open(&path).unwrap();
        let journal = Journal::resume(file, &found(&path, 40), policy).unwrap();
        journal.ready().unwrap();
        let (first, second) = (journal.take(&call(1)), journal.take(&call(2)));
        let words = refused(journal.keep(second, true));
        assert_eq!(refused(journal.ready()), words);
        assert_eq!(refused(journal.keep(first, false)), words);
        assert_eq!(refused(journal.sync()), words);
        assert_eq!(refused(journal.settle()), words);
        assert_eq!((journal.written(), journal.synced()), (40, 40));
        journal.keep(40, true).unwrap(); // what was kept before stays so
    }
    assert_eq!(fs::metadata(&path).unwrap().len(), 64);
}

#[test]
fn a_next_journal_that_fails_leaves_the_one_before_whole() {
    let scratch = Scratch::new("next-failed");
    let path = scratch.file("journal");
    let journal = begin(&path, SyncAt::EachCall);
    let first = journal.take(&call(1));
    let next = scratch.file("next");
    drop(new_file(&next));
    journal.switch(File::open(&next).unwrap(), header(4));
    let second = journal.take(&call(2));
    refused(journal.keep(second, true));
    refused(journal.keep(first, true)); // written, but nobody was told
    drop(journal);
    assert_eq!(entries_in(&path, 3).1, [(41, 1)]);
    assert_eq!(fs::metadata(&next).unwrap().len(), 0);
}

/// Many threads wait for a write that fails: each is told.
#[test]
fn all_that_wait_are_told_of_a_failure() {
    let scratch = Scratch::new("all-told");
    let path = scratch.file("journal");
    drop(begin(&path, SyncAt::EachCall));
    let file = File::open(&path).unwrap();
    let journal = Journal::resume(file, &found(&path, 40), SyncAt::EachCall).unwrap();
    thread::scope(|threads| {
        let keep = |n| journal.keep(journal.take(&call(n)), true);
        let waiting = [0, 1, 2, 3].map(|n| threads.spawn(move || keep(n)));
        for thread in waiting {
            refused(thread.join().unwrap());
        }
    });
}

/// A device that takes every write, and cannot be synced.
fn never_synced(policy: SyncAt) -> Journal {
    let file = OpenOptions::new().write(true).open("/dev/null").unwrap();
    let output = Output {
        file: Arc::new(file),
        header: HEADER,
        length: 64,
        end: 0,
        room: Vec::new(),
    };
    Journal::new(output, 40, policy).unwrap()
}

#[test]
fn the_first_failed_sync_is_final() {
    let journal = never_synced(SyncAt::EachPublish);
    let first = journal.take(&call(1));
    journal.keep(first, false).unwrap();
    let second = journal.take(&call(2));
    let words = refused(journal.keep(second, true));
    assert_eq!(refused(journal.ready()), words);
    assert_eq!((journal.written(), journal.synced()), (42, 40));
    let third = journal.take(&call(3));
    assert_eq!(refused(journal.keep(third, false)), words);
    assert_eq!(refused(journal.sync()), words);
    assert_eq!(journal.written(), 42);

    let journal = never_synced(SyncAt::Every(Duration::ZERO));
    journal.keep(journal.take(&call(1)), true).unwrap();
    while journal.ready().is_ok() {
        thread::sleep(Duration::from_micros(100));
    }
    assert_eq!((journal.written(), journal.synced()), (41, 40));
}

#[test]
fn all_that_wait_for_a_sync_are_told_that_it_failed() {
    let journal = never_synced(SyncAt::EachCall);
    thread::scope(|threads| {
        let keep = |n| journal.keep(journal.take(&call(n)), true);
        let waiting = [0, 1, 2, 3].map(|n| threads.spawn(move || keep(n)));
        for thread in waiting {
            refused(thread.join().unwrap());
        }
    });
}

/// By a write, by the sync that somebody waits for, by that in the background and by the last; and where it has failed before.
#[test]
fn whoever_watches_is_told_of_a_failure() {
    let told = Arc::new(AtomicBool::new(false));
    let watch = |journal: &Journal| {
        let told = Arc::clone(&told);
        told.store(false, Ordering::SeqCst);
        journal.on_failure(Arc::new(move || told.store(true, Ordering::SeqCst)));
    };
    let is_told = || told.load(Ordering::SeqCst);
    let scratch = Scratch::new("watched");
    let path = scratch.file("journal");
    drop(begin(&path, SyncAt::EachCall));
    let file = File::open(&path).unwrap();
    let unwritten = Journal::resume(file, &found(&path, 40), LATER).unwrap();
    watch(&unwritten);
    assert!(!is_told());
    refused(unwritten.keep(unwritten.take(&call(1)), false));
    assert!(is_told());
    watch(&unwritten);
    assert!(is_told());

    let unsynced = never_synced(SyncAt::EachCall);
    watch(&unsynced);
    refused(unsynced.keep(unsynced.take(&call(1)), false));
    assert!(is_told());

    let background = never_synced(SyncAt::Every(Duration::ZERO));
    watch(&background);
    background.keep(background.take(&call(1)), false).unwrap();
    while !is_told() {
        thread::yield_now();
    }

    let last = never_synced(LATER);
    watch(&last);
    last.keep(last.take(&call(1)), false).unwrap();
    assert!(!is_told());
    refused(last.close().map(drop));
    assert!(is_told());
}

/// A write of which a part got to the file: when the journal is closed, nothing is left of it.
#[test]
fn what_a_failed_write_has_left_is_cut_off() {
    let scratch = Scratch::new("unkept");
    let path = scratch.file("journal");
    let journal = begin(&path, SyncAt::EachCall);
    journal.keep(journal.take(&call(1)), false).unwrap();
    let length = journal.length();
    journal.fail(&ErrorKind::Other.into());
    let mut bytes = fs::read(&path).unwrap();
    let entries = bytes[64..length as usize].to_vec();
    bytes.truncate(length as usize);
    bytes.extend(entries); // as if it had got so far
    fs::write(&path, bytes).unwrap();
    refused(journal.close().map(drop));
    assert_eq!(fs::metadata(&path).unwrap().len(), length);
}
