//! A folder whose journal cannot be written goes on in the same process, once there is room again; and a folder that is closed.

use crate::folder::Folder;
use crate::support::call::{each, make_durable, Call};
use crate::support::process::in_a_process;
use pit_host::{
    Durable, Error, Failure, FileError, Limits, Line, Minute, Opened, Options, PageIndex, Shared,
    Store, SyncAt, Ticket, Version,
};
use std::sync::atomic::{AtomicBool, Ordering};
use std::thread;
use std::time::{Duration, Instant};

const LIVE: Line = Line(0);
/// Longer than anybody here takes, where nothing is wrong.
const LONG: Duration = Duration::from_secs(60);

fn store() -> Store {
    Store::format(Limits::new(16, 4_000, 40_000, 2_000)).unwrap()
}

fn create(place: &Folder, options: Options) -> Durable {
    let durable = Durable::create(place.path("folder"), store(), options).unwrap();
    durable.set_clock(|| Minute(0));
    durable
}

fn append(durable: &Durable, fill: u8) -> Result<Version, Failure> {
    durable.append_pages(LIVE, &[&[fill; 16]])
}

fn of_file<T>(result: Result<T, Failure>) -> FileError {
    match result.map(drop) {
        Err(Failure::File(error)) => error,
        other => panic!("{other:?}"),
    }
}

fn is_failed<T>(result: Result<T, Failure>) -> bool {
    matches!(of_file(result), FileError::JournalFailed { .. })
}

fn is_closed<T>(result: Result<T, Failure>) -> bool {
    matches!(of_file(result), FileError::Closed)
}

/// The store that another process would find.
fn found(place: &Folder) -> (Store, Opened) {
    let (found, opened) = Durable::open(place.path("folder"), Options::new()).unwrap();
    (found.to_store(), opened)
}

// Files that can get no longer: a process finds that as it finds a disk that is full, and it ends when the limit does.

extern "C" {
    fn setrlimit(of: i32, limits: &[u64; 2]) -> i32;
    fn signal(number: i32, handler: usize) -> usize;
    fn alarm(seconds: u32) -> u32;
}

/// The length of files, by its number, and the signal that says that one is too long; and to be left in peace by it.
const LENGTH: i32 = 1;
const TOO_LONG: i32 = 25;
const IGNORED: usize = 1;

/// No file of this process is written beyond this byte.
fn limit(bytes: u64) {
    let limits = [bytes, u64::MAX];
    // SAFETY: the one sets how a signal is handled, which no other thread here does, and the other reads two numbers.
    let set = unsafe {
        signal(TOO_LONG, IGNORED);
        setrlimit(LENGTH, &limits)
    };
    assert_eq!(set, 0);
}

/// Ends this process if it has not ended by itself: somebody waits for ever.
fn end_after(seconds: u32) {
    // SAFETY: it takes a number.
    unsafe { alarm(seconds) };
}

#[test]
fn a_folder_is_taken_up_again_after_its_journal_failed() {
    in_a_process("recovery::fails_and_goes_on");
}

#[test]
#[ignore = "a part that another test runs in a process of its own"]
fn fails_and_goes_on() {
    end_after(120);
    for (k, sync) in [
        SyncAt::EachCall,
        SyncAt::EachPublish,
        SyncAt::Every(Duration::from_millis(1)),
    ]
    .into_iter()
    .enumerate()
    {
        let place = Folder::new(&format!("recovery-{k}"));
        let durable = create(&place, Options::new().sync(sync).checkpoint_at(0));
        for round in 0..3 {
            fail_and_go_on(&place, &durable, round);
        }
        let last = durable.to_store();
        durable.close().unwrap();
        let (found, opened) = found(&place);
        assert!(found == last && opened.cut.is_none(), "{opened}");
    }
}

fn fail_and_go_on(place: &Folder, durable: &Durable, round: u8) {
    let last = append(durable, round).unwrap();
    let (before, next) = (durable.to_store(), Version(last.0 + 1));
    let mut unfilled = durable.snapshot(LIVE, last).unwrap();
    let mut filled = unfilled.clone().filled().unwrap();
    thread::scope(|threads| {
        let waiting = [
            threads.spawn(|| durable.wait_published(LIVE, next).map(|()| true)),
            threads.spawn(|| durable.wait_published_for(LIVE, next, LONG)),
        ];
        durable.sync().unwrap();
        // in the middle of the first entry, of the second, and so on
        limit(durable.journal_length() + 30 * u64::from(round) + 10);
        assert!(is_failed(append(durable, 100)));
        for waiting in waiting {
            assert!(is_failed(waiting.join().unwrap()));
        }
    });
    assert!(is_failed(append(durable, 100)) && is_failed(durable.begin(1)));
    assert!(is_failed(durable.wait_published(LIVE, next)) && is_failed(durable.checkpoint()));
    assert_eq!(durable.recent(LIVE), Ok(last));
    let other = Durable::open(place.path("folder"), Options::new());
    assert!(matches!(of_file(other), FileError::InUse { .. })); // the folder is still this one's

    limit(u64::MAX);
    let opened = durable.reopen().unwrap();
    assert!(opened.cut.is_none(), "{opened}"); // what was refused is not there
    assert!(durable.to_store() == before);
    assert_eq!(unfilled.view(PageIndex(0)), Err(Error::NotPublished));
    assert!(filled.view(PageIndex(0)).is_ok());
    for snapshot in [&mut unfilled, &mut filled] {
        assert_eq!(snapshot.advance(), Ok(true)); // in the store that is there now
    }
    assert_eq!(append(durable, round).unwrap(), next);
    durable.wait_published(LIVE, next).unwrap();
    for snapshot in [&mut unfilled, &mut filled] {
        assert_eq!((snapshot.advance(), snapshot.version()), (Ok(true), next));
        assert_eq!(snapshot.view(PageIndex(next.0 - 1)), Ok(&[round; 16][..]));
    }
}

#[test]
fn a_close_tells_what_drop_does_not() {
    in_a_process("recovery::cannot_be_closed");
}

/// What is noted of the last sync cannot be written.
#[test]
#[ignore = "a part that another test runs in a process of its own"]
fn cannot_be_closed() {
    end_after(120);
    let place = Folder::new("recovery-close");
    let options = Options::new().sync(SyncAt::Every(LONG)).checkpoint_at(0);
    let durable = create(&place, options);
    append(&durable, 1).unwrap();
    limit(8);
    let told = of_file(durable.close());
    assert!(
        matches!(told, FileError::JournalFailed { .. } | FileError::Io { .. }),
        "{told}"
    );
    assert!(append(&durable, 2).is_err());
    limit(u64::MAX);
    assert_eq!(found(&place).0.recent(LIVE), Ok(Version(1))); // the lock is given back, whatever came of it
    durable.reopen().unwrap();
    assert_eq!(append(&durable, 2).unwrap(), Version(2));
    durable.close().unwrap();
}

// A folder that is closed.

/// A ticket that is to be put, one that is put, and one that has a version.
fn at_each_stage(durable: &Durable) -> [Ticket; 3] {
    [0, 1, 2].map(|stage| {
        let ticket = durable.begin(1).unwrap();
        if stage > 0 {
            durable.put(ticket, 0, &[3; 16]).unwrap();
        }
        if stage > 1 {
            durable.append(LIVE, ticket).unwrap();
        }
        ticket
    })
}

#[test]
fn a_closed_folder_can_be_read_and_opened_anew() {
    let place = Folder::new("recovery-closed");
    let durable = create(&place, Options::new().sync(SyncAt::Every(LONG)));
    let other = durable.clone();
    append(&durable, 1).unwrap();
    let tickets = at_each_stage(&durable);
    let last = durable.to_store();
    other.close().unwrap();
    other.close().unwrap();
    assert_eq!(durable.entries().0, durable.entries().1);
    assert!(found(&place).0 == last); // with the handles still there

    let mut calls = each(LIVE, Version(0), tickets, &[2; 16]);
    calls.retain(|call| call.changes() && call.name() != "PUBLISH"); // nothing is due
    calls.extend([
        Call::Finish(tickets[2], Minute(0)),
        Call::Rebuild(durable.limits(), vec![], vec![]),
        Call::Checkpoint,
    ]);
    for call in calls {
        assert!(is_closed(make_durable(&durable, &call)), "{call:?}");
    }
    assert!(is_closed(append(&durable, 2)));
    assert!(is_closed(durable.wait_published(LIVE, Version(9))));
    assert_eq!(durable.recent(LIVE), Ok(Version(1)));
    assert!(durable.snapshot(LIVE, Version(1)).is_ok());
    durable.save(place.path("file")).unwrap();
    assert!(Shared::load(place.path("file")).unwrap().to_store() == last);

    // another one has it, and goes on in it
    let (another, _) = Durable::open(place.path("folder"), Options::new()).unwrap();
    another.set_clock(|| Minute(0));
    assert!(matches!(of_file(durable.reopen()), FileError::InUse { .. }));
    assert!(is_closed(append(&durable, 2)));
    assert_eq!(another.finish(tickets[2]).unwrap(), Version(2));
    another.close().unwrap();
    durable.reopen().unwrap();
    assert!(matches!(of_file(another.reopen()), FileError::InUse { .. }));
    assert_eq!(durable.recent(LIVE), Ok(Version(2)));
    durable.put(tickets[0], 0, &[2; 16]).unwrap();
    assert_eq!(append(&other, 4).unwrap(), Version(3));
    let last = durable.to_store();
    drop((durable, other, another));
    assert!(found(&place).0 == last);
}

/// A folder that cannot be read stays closed, and is taken up when it can.
#[test]
fn a_folder_that_cannot_be_opened_anew_stays_closed() {
    let place = Folder::new("recovery-gone");
    let durable = create(&place, Options::new());
    append(&durable, 1).unwrap();
    let (journal, aside) = (place.path("folder/journal-1"), place.path("aside"));
    std::fs::rename(&journal, &aside).unwrap();
    assert!(matches!(of_file(durable.reopen()), FileError::NoJournal(1)));
    assert!(is_closed(append(&durable, 2)) && is_closed(durable.wait_published(LIVE, Version(2))));
    assert_eq!(durable.recent(LIVE), Ok(Version(1)));
    let other = Durable::open(place.path("folder"), Options::new());
    assert!(matches!(of_file(other), FileError::InUse { .. }));
    std::fs::rename(&aside, &journal).unwrap();
    durable.reopen().unwrap();
    assert_eq!(append(&durable, 2).unwrap(), Version(2));
}

// A folder with more than one journal.

/// A checkpoint that fails leaves a second journal. When the folder is opened, or opened anew, one is made at once, however short they
/// are; where none is to be made by itself, they stay.
#[test]
fn several_journals_are_followed_by_a_checkpoint() {
    let place = Folder::new("recovery-several");
    let inside = Folder(place.path("folder"));
    let durable = create(&place, Options::new().checkpoint_at(0));
    let in_the_way = place.path("folder/store-2");
    std::fs::create_dir(&in_the_way).unwrap();
    append(&durable, 1).unwrap();
    assert!(durable.checkpoint().is_err());
    append(&durable, 2).unwrap();
    std::fs::remove_dir(&in_the_way).unwrap();
    assert_eq!(durable.reopen().unwrap().journals, 2);
    drop(durable);
    assert_eq!(inside.generations("journal-"), [1, 2]);

    let (durable, opened) = Durable::open(place.path("folder"), Options::new()).unwrap();
    assert_eq!(opened.journals, 2);
    let begin = Instant::now();
    while inside.generations("journal-") != [3] {
        assert!(begin.elapsed() < LONG);
        thread::sleep(Duration::from_millis(1));
    }
    assert_eq!(inside.generations("store-"), [3]);
    std::mem::forget(inside); // the place removes it
    assert_eq!(durable.recent(LIVE), Ok(Version(2)));
}

// A folder that is opened anew under its callers.

/// Writers, one who waits, checkpoints and saves, while the folder is opened anew again and again: whatever returned stays.
#[test]
fn callers_go_on_while_the_folder_is_opened_anew() {
    const UPDATES: u64 = 150;
    for (k, sync) in [SyncAt::EachPublish, SyncAt::Every(Duration::ZERO)]
        .into_iter()
        .enumerate()
    {
        let place = Folder::in_memory(&format!("recovery-crowd-{k}"));
        let options = Options::new().sync(sync).checkpoint_at(10_000);
        let durable = &create(&place, options);
        let (all, ended) = (Version(3 * UPDATES), AtomicBool::new(false));
        thread::scope(|threads| {
            let waiting = threads.spawn(move || durable.wait_published_for(LIVE, all, LONG));
            let writers = [1, 2, 3]
                .map(|fill| threads.spawn(move || (0..UPDATES).for_each(|_| write(durable, fill))));
            let reopening = threads.spawn(|| {
                let until_ended = || !ended.load(Ordering::Acquire);
                (0..)
                    .take_while(|_| until_ended())
                    .for_each(|k| reopen(durable, &place, k))
            });
            let written = writers.map(|writer| writer.join().is_ok());
            ended.store(true, Ordering::Release);
            assert!(reopening.join().is_ok());
            assert_eq!(written, [true; 3]);
            assert!(waiting.join().unwrap().unwrap());
        });
        assert_eq!(durable.recent(LIVE), Ok(all));
        let last = durable.to_store();
        durable.close().unwrap();
        assert!(found(&place).0 == last);
    }
}

/// One update, which can be read when it has returned, and later.
fn write(durable: &Durable, fill: u8) {
    let version = append(durable, fill).unwrap();
    durable.wait_published(LIVE, version).unwrap();
    assert!(durable.recent(LIVE).unwrap() >= version);
    let page = PageIndex(version.0 - 1);
    let first = durable.with_view(LIVE, version, page, |bytes| bytes[0]);
    assert_eq!(first, Ok(fill));
}

/// A save has nothing that the folder does not have a moment later.
fn reopen(durable: &Durable, place: &Folder, k: u64) {
    match k % 4 {
        0 => drop(durable.checkpoint().unwrap()),
        1 => {
            let saved = durable.save(place.path("file")).unwrap();
            durable.reopen().unwrap();
            assert!(durable.recent(LIVE).unwrap() >= saved);
        }
        _ => drop(durable.reopen().unwrap()),
    }
}
