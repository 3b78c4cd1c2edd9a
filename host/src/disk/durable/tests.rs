use super::*;
use crate::calls::areas::Limits;
use crate::calls::counters::{Line, PageIndex};
use crate::disk::file::new::tests::Folder as Scratch;
use crate::{Minute, SyncAt};
use std::io;
use std::sync::mpsc::{channel, Receiver};
use std::thread;
use std::time::Duration;

const LIVE: Line = Line(0);
/// Longer than anybody here takes, where nothing is wrong.
const LONG: Duration = Duration::from_secs(60);

fn durable(scratch: &Scratch) -> Durable {
    let store = Store::format(Limits::new(16, 40, 160, 20)).expect("limits in range");
    let options = Options::new().sync(SyncAt::EachPublish);
    let durable = Durable::create(scratch.0.join("folder"), store, options).unwrap();
    durable.set_clock(|| Minute(0));
    durable
}

fn fail(durable: &Durable) {
    let error = io::Error::from(io::ErrorKind::Other);
    durable.log.folder.journal().fail(&error);
}

type Waited = Receiver<(Result<(), Failure>, Result<bool, Failure>)>;

/// Two who wait for a version: without an end, and for long. They wait when this returns.
fn waiting(durable: &Durable, version: u64) -> Waited {
    let (told, waited) = channel();
    let (one, other) = (durable.clone(), durable.clone());
    let other = thread::spawn(move || other.wait_published_for(LIVE, Version(version), LONG));
    thread::spawn(move || {
        let one = one.wait_published(LIVE, Version(version));
        let _ = told.send((one, other.join().expect("no panic"))); // if somebody still listens
    });
    while durable.core.visible.waiting() < 2 {
        thread::yield_now();
    }
    waited
}

fn of_file(failure: Failure) -> FileError {
    match failure {
        Failure::File(error) => error,
        other => panic!("{other:?}"),
    }
}

#[test]
fn those_who_wait_are_told_of_a_failure() {
    let scratch = Scratch::new("durable-failed");
    let durable = durable(&scratch);
    let waited = waiting(&durable, 1);
    fail(&durable);
    let (one, other) = waited.recv_timeout(LONG / 2).expect("they are woken");
    let failures = [one.unwrap_err(), other.unwrap_err()].map(of_file);
    let is_failed = |error: &FileError| matches!(error, FileError::JournalFailed { .. });
    assert!(failures.iter().all(is_failed));
    assert!(durable.wait_published(LIVE, Version(1)).is_err());
    durable.wait_published(LIVE, Version(0)).unwrap(); // it is shown
}

#[test]
fn those_who_wait_are_told_that_the_folder_is_closed() {
    let scratch = Scratch::new("durable-closed");
    let durable = durable(&scratch);
    let waited = waiting(&durable, 1);
    durable.close().unwrap();
    let (one, other) = waited.recv_timeout(LONG / 2).expect("they are woken");
    let failures = [one.unwrap_err(), other.unwrap_err()].map(of_file);
    let is_closed = |error: &FileError| matches!(error, FileError::Closed);
    assert!(failures.iter().all(is_closed));
    durable.close().unwrap(); // once more
    durable.sync().unwrap(); // all is
}

/// Also where the folder is opened anew again and again, and one begins to wait just then.
#[test]
fn those_who_wait_wait_on_while_the_folder_is_opened_anew() {
    let scratch = Scratch::new("durable-anew");
    let durable = durable(&scratch);
    let (waited, ended) = (waiting(&durable, 2), AtomicBool::new(false));
    let wait = || durable.wait_published_for(LIVE, Version(2), Duration::ZERO);
    thread::scope(|threads| {
        let looking = threads.spawn(|| {
            while !ended.load(SeqCst) {
                assert!(!wait().expect("the folder is not closed"));
            }
        });
        for _ in 0..200 {
            durable.reopen().unwrap();
        }
        ended.store(true, SeqCst);
        looking.join().unwrap();
    });
    durable.append_pages(LIVE, &[&[1; 16]]).unwrap();
    durable.reopen().unwrap();
    assert!(waited.try_recv().is_err());
    durable.append_pages(LIVE, &[&[2; 16]]).unwrap();
    let (one, other) = waited.recv_timeout(LONG / 2).expect("they are woken");
    assert!(one.is_ok() && other.unwrap());
}

#[test]
fn a_folder_whose_journal_has_failed_is_taken_up_again() {
    let scratch = Scratch::new("durable-again");
    let durable = durable(&scratch);
    durable.append_pages(LIVE, &[&[1; 16]]).unwrap();
    let before = durable.to_store();
    let ticket = {
        // a call that is made, and cannot be kept
        let mut writer = durable.writer().unwrap();
        let ticket = writer.begin(1).unwrap();
        fail(&durable);
        assert!(writer.commit().is_err());
        ticket
    };
    assert!(durable.to_store() != before);
    assert!(matches!(
        of_file(durable.close().unwrap_err()),
        FileError::JournalFailed { .. }
    ));
    durable.reopen().unwrap();
    assert!(durable.to_store() == before);
    assert!(durable
        .put(ticket, 0, &[2; 16])
        .unwrap_err()
        .error()
        .is_some());
    let done = durable.update(LIVE, PageIndex(0), &[&[2; 16]]).unwrap();
    assert_eq!(done, Version(2));
    durable.wait_published(LIVE, done).unwrap();
    durable.checkpoint().unwrap();
    durable.close().unwrap();
}

/// In a process that was forked off, a lock that another thread held is held for ever: what is refused there waits for none.
#[test]
fn what_a_forked_process_is_refused_waits_for_no_lock() {
    let scratch = Scratch::new("durable-forked");
    let mut durable = durable(&scratch);
    let as_of = |process: u32, durable: &mut Durable| {
        Arc::get_mut(&mut durable.log).expect("one handle").process = process;
    };
    as_of(std::process::id() + 1, &mut durable);
    let (told, refused) = channel();
    let (other, file) = (durable.clone(), scratch.0.join("file"));
    let held = (durable.core.saving(), durable.core.keeping());
    let held = (
        held,
        durable.core.writer_lock(),
        durable.core.visible.held(),
    );
    let refuse = thread::spawn(move || {
        let refused = [
            other.save(file).map(drop).map_err(Failure::from),
            other.wait_published(LIVE, Version(1)),
            other.begin(1).map(drop),
            other.rebuild(other.limits(), &[]).map(drop),
            other.checkpoint().map(drop),
            other.reopen().map(drop),
            other.close(),
            other.sync(),
        ];
        drop(other);
        let _ = told.send(refused.map(|refused| of_file(refused.unwrap_err())));
    });
    let refused = refused.recv_timeout(LONG / 2);
    drop(held);
    refuse.join().expect("no panic");
    as_of(std::process::id(), &mut durable);
    let is_right = |error: &FileError| matches!(error, FileError::OtherProcess);
    assert!(refused.expect("no lock is waited for").iter().all(is_right));
}

/// An entry that a journal did not keep is not taken for kept by the number of one that the next journal has.
#[test]
fn an_entry_is_kept_by_its_own_journal() {
    let scratch = Scratch::new("durable-own");
    let durable = durable(&scratch);
    let journal = durable.log.journal();
    let number = durable.log.take(&journal, &Call::Begin { n: 1 });
    fail(&durable);
    durable.reopen().unwrap();
    durable.append_pages(LIVE, &[&[1; 16]]).unwrap();
    assert!(durable.entries().1 >= number);
    assert!(durable.log.keep(&journal, number, true).is_err());
}

/// A save goes by the journal of the store that is saved: not by one that took its place since.
#[test]
fn nothing_is_saved_that_the_folder_does_not_have() {
    let scratch = Scratch::new("durable-unsaved");
    let durable = durable(&scratch);
    let mut writer = durable.writer().unwrap();
    writer.begin(1).unwrap();
    fail(&durable);
    assert!(writer.commit().is_err());
    let file = scratch.0.join("file");
    assert!(durable.save(&file).is_err() && !file.exists());
    durable.reopen().unwrap();
    durable.save(&file).unwrap();
}
