//! A folder with several journals, as a checkpoint leaves it whose save failed, or a crash inside one: none of them can be lost in silence.

use crate::folder::Folder;
use pit_host::{
    inspect, Durable, Failure, FileError, JournalErrorKind, Limits, Line, Options, Store, Version,
};
use std::fs;
use std::path::Path;
use std::process::Command;
use std::thread;
use std::time::{Duration, Instant};

const LIVE: Line = Line(0);
/// The lengths of a journal's header, and of the note that it has ended.
const HEADER: usize = 64;
const NOTE: usize = 56;

/// Nothing is done by itself.
fn options() -> Options {
    Options::new().checkpoint_at(0)
}

fn store() -> Store {
    Store::format(Limits::new(16, 64, 512, 64)).unwrap()
}

fn update(durable: &Durable, count: u8) {
    for fill in 0..count {
        durable.append_pages(LIVE, &[&[fill; 16]]).unwrap();
    }
}

/// A checkpoint that fails: its journal is begun, and its store is not saved.
fn fail_a_checkpoint(durable: &Durable, generation: u64) {
    let in_the_way = durable.folder().join(format!("store-{generation}"));
    fs::create_dir(&in_the_way).unwrap();
    durable.checkpoint().unwrap_err();
    fs::remove_dir(in_the_way).unwrap();
}

/// A folder with three versions in its first journal and three in its second, as a killed process leaves it.
fn killed(place: &Folder) -> Vec<(String, Vec<u8>)> {
    let durable = Durable::create(&place.0, store(), options()).unwrap();
    update(&durable, 3);
    fail_a_checkpoint(&durable, 2);
    update(&durable, 3);
    durable.sync().unwrap();
    let files = place.files();
    let names: Vec<&str> = files.iter().map(|(name, _)| &name[..]).collect();
    assert_eq!(names, ["journal-1", "journal-2", "store-1"]);
    files
}

fn bytes_of<'a>(files: &'a [(String, Vec<u8>)], name: &str) -> &'a [u8] {
    &files.iter().find(|file| file.0 == name).unwrap().1
}

fn pit_verify(folder: &Path) -> (bool, String) {
    let output = Command::new(env!("CARGO_BIN_EXE_pit"))
        .arg("verify")
        .arg(folder)
        .output()
        .unwrap();
    let words = String::from_utf8_lossy(&output.stderr).into_owned();
    (output.status.success(), words)
}

/// How opening a folder, looking at it and `pit verify` refuse it, all alike. Nothing is changed.
fn refused(folder: &Folder) -> FileError {
    let before = folder.files();
    let opened = Durable::open(&folder.0, options()).map(drop).unwrap_err();
    let inspected = inspect(&folder.0).map(drop).unwrap_err();
    assert_eq!(opened.to_string(), inspected.to_string());
    let (verified, words) = pit_verify(&folder.0);
    assert!(!verified && words.contains(&opened.to_string()), "{words}");
    assert!(folder.files() == before);
    match opened {
        Failure::File(error) => error,
        other => panic!("{other}"),
    }
}

fn is_header(error: FileError, generation: u64) -> bool {
    let due = (generation, JournalErrorKind::Header);
    matches!(error, FileError::Journal(e) if (e.generation, e.kind.clone()) == due)
}

#[test]
fn a_last_journal_that_is_deleted_is_an_error() {
    let place = Folder::new("lost-deleted");
    let files = killed(&place);
    place.set(&files);
    assert!(pit_verify(&place.0).0);
    fs::remove_file(place.path("journal-2")).unwrap();
    assert!(matches!(refused(&place), FileError::NoJournal(2)));
}

#[test]
fn a_last_journal_that_is_cut_within_its_header_is_an_error() {
    let place = Folder::new("lost-cut");
    let files = killed(&place);
    for length in [0, 1, 8, HEADER - 1] {
        place.set(&files);
        let header = &bytes_of(&files, "journal-2")[..length];
        fs::write(place.path("journal-2"), header).unwrap();
        assert!(is_header(refused(&place), 2));
    }
}

/// Where the folder was closed, that tells what a journal held which has its header alone; after a kill it may have had no more.
#[test]
fn a_last_journal_that_is_cut_to_its_header_is_an_error_where_it_was_closed() {
    let place = Folder::new("lost-header");
    let files = killed(&place);
    let header = &bytes_of(&files, "journal-2")[..HEADER];
    place.set(&files);
    fs::write(place.path("journal-2"), header).unwrap();
    let (durable, _) = Durable::open(&place.0, options()).unwrap();
    assert_eq!(durable.recent(LIVE).unwrap(), Version(3));
    drop(durable);

    place.set(&files);
    drop(Durable::open(&place.0, options()).unwrap());
    fs::write(place.path("journal-2"), header).unwrap();
    let error = refused(&place);
    let shorter = JournalErrorKind::ShorterThanClosed { last: 30 };
    assert!(
        matches!(&error, FileError::Journal(e) if e.kind == shorter),
        "{error}"
    );
}

/// The note is torn at every byte, and so is what a process has written that died before it: all is there, and from the next opening on the
/// last journal is demanded again.
#[test]
fn a_journal_whose_note_is_torn_is_followed_all_the_same() {
    let place = Folder::new("lost-torn");
    let files = killed(&place);
    let journal = bytes_of(&files, "journal-1");
    let (calls, note) = journal.split_at(journal.len() - NOTE);
    for length in 0..NOTE {
        for tail in [&note[..length], &vec![0; length][..]] {
            place.set(&files);
            fs::write(place.path("journal-1"), [calls, tail].concat()).unwrap();
            let seen = inspect(&place.0).unwrap();
            assert_eq!((seen.found.journals, seen.found.cut), (2, None));
            let (durable, opened) = Durable::open(&place.0, options()).unwrap();
            assert_eq!((opened.journals, opened.cut), (2, None));
            assert_eq!(durable.recent(LIVE).unwrap(), Version(6));
            drop(durable);
            assert!(fs::read(place.path("journal-1")).unwrap() == journal);
        }
        fs::remove_file(place.path("journal-2")).unwrap();
        assert!(matches!(refused(&place), FileError::NoJournal(2)));
    }
}

/// As where a process dies between the header of the next journal and the note that the one before has ended.
#[test]
fn a_journal_that_was_just_begun_opens_and_is_demanded_from_then_on() {
    let place = Folder::new("lost-begun");
    let files = killed(&place);
    let journal = bytes_of(&files, "journal-1");
    let begun = |header: &[u8]| {
        place.set(&files);
        fs::write(place.path("journal-1"), &journal[..journal.len() - NOTE]).unwrap();
        fs::write(place.path("journal-2"), header).unwrap();
        let (durable, opened) = Durable::open(&place.0, options()).unwrap();
        assert_eq!(durable.recent(LIVE).unwrap(), Version(3));
        update(&durable, 1);
        drop(durable);
        opened.journals
    };
    let header = &bytes_of(&files, "journal-2")[..HEADER];
    assert_eq!(begun(&header[..HEADER - 1]), 1);
    let (durable, _) = Durable::open(&place.0, options()).unwrap();
    assert_eq!(durable.recent(LIVE).unwrap(), Version(4));
    drop(durable);

    assert_eq!(begun(header), 2);
    fs::remove_file(place.path("journal-2")).unwrap();
    assert!(matches!(refused(&place), FileError::NoJournal(2)));
}

/// Returns when it is so.
fn wait_until(is_so: impl Fn() -> bool) {
    let begun = Instant::now();
    while !is_so() {
        assert!(begun.elapsed() < Duration::from_secs(60), "waited in vain");
        thread::sleep(Duration::from_millis(1));
    }
}

/// However short the journals are: from then on there is one again.
#[test]
fn a_checkpoint_is_made_right_after_several_journals_were_opened() {
    let place = Folder::new("lost-checkpoint");
    let files = killed(&place);
    place.set(&files);
    let (durable, opened) = Durable::open(&place.0, Options::new()).unwrap();
    assert_eq!(opened.journals, 2);
    wait_until(|| place.names() == ["journal-3", "lock", "store-3"]);
    assert_eq!(durable.checkpoint_failure(), None);
    assert_eq!(durable.recent(LIVE).unwrap(), Version(6));
    drop(durable);
    // not where there is one, nor where nothing is to be done by itself
    let (durable, opened) = Durable::open(&place.0, Options::new()).unwrap();
    assert_eq!((opened.generation, opened.journals), (3, 1));
    update(&durable, 1);
    fail_a_checkpoint(&durable, 4);
    drop(durable);
    drop(Durable::open(&place.0, options()).unwrap());
    let (_, opened) = Durable::open(&place.0, options()).unwrap();
    assert_eq!((opened.generation, opened.journals), (3, 2));
}
