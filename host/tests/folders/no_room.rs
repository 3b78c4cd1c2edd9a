//! A folder on a disk that is full, as a process finds it that may write no longer files: it opens, and what could not be written is told.

use crate::folder::Folder;
use pit_host::{
    inspect, Durable, Failure, FileError, Limits, Line, Options, Store, SyncAt, Version,
};
use std::fs;
use std::path::Path;
use std::process::Command;
use std::thread;
use std::time::{Duration, Instant};

const LIVE: Line = Line(0);
/// No file of some kilobytes can be written.
const SOME_KILOBYTES: u64 = 4_096;
const NOTE: usize = 56;

fn store() -> Store {
    Store::format(Limits::new(64, 1_000, 6_000, 500)).unwrap()
}

/// Nothing is done by itself, and no note is written that all is synced.
fn options() -> Options {
    let later = SyncAt::Every(Duration::from_secs(1 << 20));
    Options::new().checkpoint_at(0).sync(later)
}

fn update(durable: &Durable, count: u8) {
    for fill in 0..count {
        durable.append_pages(LIVE, &[&[fill; 64]]).unwrap();
    }
}

/// So much of a journal, as a killed process leaves it: without what was written ahead.
fn set_length(place: &Folder, name: &str, length: usize) {
    let file = fs::OpenOptions::new().write(true).open(place.path(name));
    file.unwrap().set_len(length as u64).unwrap();
}

// The process that finds no room.

/// Runs a part in a process that may write files of so many bytes.
fn run(part: &str, folder: &Folder, most: u64) {
    let blocks = most / bytes_of_a_block(folder);
    let limit = format!("trap '' XFSZ; ulimit -f {blocks}; exec \"$@\"");
    // what it says is read here: a file that it went to would be under the limit too
    let output = Command::new("sh")
        .args(["-c", &limit, "sh"])
        .arg(std::env::current_exe().unwrap())
        .args(["--ignored", "--exact", "no_room::as_a_child"])
        .env("PIT_CHILD", part)
        .env("PIT_CHILD_FOLDER", &folder.0)
        .output()
        .unwrap();
    assert!(output.status.success(), "{output:?}");
}

/// Shells count in blocks of 512 or 1,024 bytes.
fn bytes_of_a_block(folder: &Folder) -> u64 {
    let probe = folder.path("probe");
    let write = "trap '' XFSZ; ulimit -f 1; head -c 5000 /dev/zero > \"$0\"";
    let mut shell = Command::new("sh");
    shell
        .args(["-c", write])
        .arg(&probe)
        .stderr(std::process::Stdio::null());
    shell.status().unwrap();
    let length = fs::metadata(&probe).unwrap().len();
    fs::remove_file(probe).unwrap();
    assert!([512, 1_024].contains(&length));
    length
}

#[test]
#[ignore = "a part that other tests start"]
fn as_a_child() {
    let variable = |name: &str| std::env::var(name).unwrap_or_default();
    let folder = variable("PIT_CHILD_FOLDER");
    let folder = Path::new(&folder);
    match &variable("PIT_CHILD")[..] {
        "open" => drop(Durable::open(folder, options()).unwrap()),
        "open in vain" => drop(Durable::open(folder, options()).map(drop).unwrap_err()),
        "checkpoint" => checkpoint_after_opening(folder),
        "rebuild" => rebuild_in_vain(folder, 0),
        "rebuild and go on" => rebuild_in_vain(folder, 1),
        _ => (), // started by hand, it has no part
    }
}

fn checkpoint_after_opening(folder: &Path) {
    let (durable, opened) = Durable::open(folder, Options::new()).unwrap();
    assert_eq!(opened.journals, 2);
    let begun = Instant::now();
    while durable.checkpoint_failure().is_none() {
        assert!(begun.elapsed() < Duration::from_secs(60), "waited in vain");
        thread::sleep(Duration::from_millis(1));
    }
    update(&durable, 1);
}

fn rebuild_in_vain(folder: &Path, updates: u8) {
    let (durable, _) = Durable::open(folder, options()).unwrap();
    durable.rebuild(durable.limits(), &[]).unwrap_err();
    update(&durable, updates);
}

// What it leaves.

/// A note that all is synced has no room, and can be done without.
#[test]
fn a_folder_opens_where_a_note_has_no_room() {
    let place = Folder::new("no-room-note");
    let durable = Durable::create(&place.0, store(), options()).unwrap();
    (0..17).for_each(|_| drop(durable.begin(1)));
    assert_eq!(durable.journal_length(), 1_016);
    let files = place.files();
    drop(durable);
    place.set(&files);
    set_length(&place, "journal-1", 1_016);
    let journal = fs::read(place.path("journal-1")).unwrap();
    run("open", &place, 1_024);
    assert!(fs::read(place.path("journal-1")).unwrap() == journal);
    let (durable, opened) = Durable::open(&place.0, options()).unwrap();
    assert_eq!((opened.entries, opened.cut), (17, None));
    assert_eq!(durable.journal_length(), 1_016 + NOTE as u64);
}

/// Nor has the note that a journal has ended, of a process that died before it wrote it.
#[test]
fn a_folder_opens_where_the_note_of_an_end_has_no_room() {
    let place = Folder::new("no-room-end");
    let durable = Durable::create(&place.0, store(), options()).unwrap();
    (0..16).for_each(|_| drop(durable.begin(1)));
    fs::create_dir(place.path("store-2")).unwrap();
    durable.checkpoint().unwrap_err();
    fs::remove_dir(place.path("store-2")).unwrap();
    durable.begin(1).unwrap();
    let files = place.files();
    drop(durable);
    place.set(&files);
    assert_eq!(fs::metadata(place.path("journal-1")).unwrap().len(), 1_072);
    set_length(&place, "journal-1", 1_016);
    run("open", &place, 1_024);
    let (_, opened) = Durable::open(&place.0, options()).unwrap();
    assert_eq!((opened.journals, opened.entries), (2, 17));
    assert_eq!(fs::metadata(place.path("journal-1")).unwrap().len(), 1_072);
}

/// What a process that died has left unsynced is written anew. Where that fails, the next journal may not be on the disk, and the one before
/// does not say that it is.
#[test]
fn no_end_is_noted_before_the_next_journal_is_on_the_disk() {
    let place = Folder::new("no-room-next");
    let durable = Durable::create(&place.0, store(), options()).unwrap();
    durable.begin(1).unwrap();
    fs::create_dir(place.path("store-2")).unwrap();
    durable.checkpoint().unwrap_err();
    fs::remove_dir(place.path("store-2")).unwrap();
    (0..40).for_each(|_| drop(durable.begin(1)));
    let (files, length) = (place.files(), durable.journal_length() as usize);
    drop(durable);
    place.set(&files);
    set_length(&place, "journal-1", 64 + NOTE);
    set_length(&place, "journal-2", length);
    let files = place.files();
    run("open in vain", &place, 1_024);
    assert!(place.files() == files);
    let (_, opened) = Durable::open(&place.0, options()).unwrap();
    assert_eq!((opened.journals, opened.entries), (2, 41));
    let noted = 64 + 2 * NOTE as u64;
    assert_eq!(fs::metadata(place.path("journal-1")).unwrap().len(), noted);
}

/// The checkpoint after opening several journals fails; opening does not, and the store goes on.
#[test]
fn a_checkpoint_after_opening_that_fails_is_told() {
    let place = Folder::new("no-room-checkpoint");
    let durable = Durable::create(&place.0, store(), options()).unwrap();
    update(&durable, 100);
    fs::create_dir(place.path("store-2")).unwrap();
    durable.checkpoint().unwrap_err();
    fs::remove_dir(place.path("store-2")).unwrap();
    update(&durable, 1);
    let files = place.files();
    drop(durable);
    place.set(&files);
    run("checkpoint", &place, SOME_KILOBYTES);
    let seen = inspect(&place.0).unwrap();
    assert_eq!((seen.found.generation, seen.found.journals), (1, 3));
    assert_eq!(seen.store.recent(LIVE).unwrap(), Version(102));
}

/// The store that was rebuilt is not saved, and its journal goes on after the one before after all: without it the folder does not open,
/// whether there is an entry in it yet or not.
#[test]
fn the_journal_of_a_rebuild_that_failed_is_not_lost_in_silence() {
    for (part, updates) in [("rebuild", 0), ("rebuild and go on", 1)] {
        let place = Folder::new(&format!("no-room-rebuild-{updates}"));
        let durable = Durable::create(&place.0, store(), options()).unwrap();
        update(&durable, 100);
        durable.checkpoint().unwrap();
        update(&durable, 1);
        drop(durable);
        run(part, &place, SOME_KILOBYTES);
        let seen = inspect(&place.0).unwrap();
        assert_eq!((seen.found.generation, seen.found.journals), (2, 2));
        assert_eq!(seen.store.recent(LIVE).unwrap(), Version(101 + updates));

        fs::remove_file(place.path("journal-3")).unwrap();
        let is_missing =
            |failure: &Failure| matches!(failure, Failure::File(FileError::NoJournal(3)));
        assert!(is_missing(&inspect(&place.0).map(drop).unwrap_err()));
        let refused = Durable::open(&place.0, options()).map(drop).unwrap_err();
        assert!(is_missing(&refused), "{refused}");
    }
}
