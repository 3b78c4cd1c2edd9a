//! A folder that was closed in order: its last journal is not shortened in silence, not even by whole entries.

use crate::folder::Folder;
use crate::support::entries::{entries, HEADER};
use pit_host::{
    inspect, Durable, Failure, FileError, JournalError, JournalErrorKind, Limits, Line, Options,
    PageIndex, Store, SyncAt,
};
use std::fs;
use std::os::unix::fs::{symlink, PermissionsExt};
use std::path::Path;

const LIVE: Line = Line(0);

fn options() -> Options {
    Options::new().checkpoint_at(0)
}

fn open(path: &Path) -> Result<Durable, Failure> {
    Durable::open(path, options()).map(|(durable, _)| durable)
}

fn update(durable: &Durable, count: u8) {
    for fill in 0..count {
        durable.update(LIVE, PageIndex(0), &[&[fill; 16]]).unwrap();
    }
}

fn created(place: &Folder, options: Options) -> Durable {
    let store = Store::format(Limits::new(16, 64, 512, 64)).unwrap();
    Durable::create(&place.0, store, options).unwrap()
}

/// How opening refuses a folder, which stays as it is.
fn refused(folder: &Folder) -> JournalError {
    let before = folder.files();
    let refused = open(&folder.0).map(drop).unwrap_err();
    assert!(folder.files() == before);
    match refused {
        Failure::File(FileError::Journal(error)) => error,
        other => panic!("{other}"),
    }
}

#[test]
fn a_journal_that_is_cut_anywhere_after_a_close_is_an_error() {
    for (name, sync) in [("call", SyncAt::EachCall), ("publish", SyncAt::EachPublish)] {
        let place = Folder::in_memory(&format!("closed-cut-{name}"));
        let durable = created(&place, options().sync(sync));
        update(&durable, 4);
        let all = durable.entries().0;
        drop(durable);
        let (journal, path) = (
            fs::read(place.path("journal-1")).unwrap(),
            place.path("journal-1"),
        );
        let each = entries(&journal);
        let last_call = each.iter().rfind(|e| e.is_call()).unwrap().end;
        for length in HEADER..journal.len() {
            fs::write(&path, &journal[..length]).unwrap();
            if length >= last_call {
                // only a note that all is synced is lost
                assert_eq!(open(&place.0).unwrap().entries().0, all);
                continue;
            }
            let whole = each.iter().filter(|e| e.is_call() && e.end <= length);
            let error = refused(&place);
            assert_eq!(error.entry, whole.count() as u64 + 1);
            assert_eq!(
                error.kind,
                JournalErrorKind::ShorterThanClosed { last: all }
            );
            if each.iter().any(|entry| entry.end == length) {
                let inspected = inspect(&place.0).map(drop).unwrap_err();
                assert_eq!(inspected.to_string(), error.to_string());
            }
        }
        fs::write(&path, &journal[..HEADER]).unwrap();
        let words = format!(
            "journal-1 at byte 64, entry 1: the journal ends before this entry, and had entries up to {all} when it was closed in order"
        );
        assert_eq!(refused(&place).to_string(), words);
        fs::write(&path, &journal).unwrap();
        assert_eq!(open(&place.0).unwrap().entries().0, all);
    }
}

/// A process that was killed has closed nothing: what it was writing may be gone, as after a crash.
#[test]
fn a_journal_that_was_not_closed_is_cut_as_after_a_crash() {
    let place = Folder::in_memory("closed-killed");
    let durable = created(&place, options());
    update(&durable, 4);
    let files = place.files();
    assert!(files.iter().all(|(name, _)| name != "closed"));
    drop(durable);
    let journal = &files
        .iter()
        .find(|(name, _)| name == "journal-1")
        .unwrap()
        .1;
    for entry in entries(journal) {
        place.set(&files);
        fs::write(place.path("journal-1"), &journal[..entry.end]).unwrap();
        assert_eq!(open(&place.0).unwrap().entries().0, entry.number);
    }
}

/// What was written after a close, by a process that was killed, may be gone, and nothing before.
#[test]
fn a_journal_that_has_grown_since_holds_at_least_what_it_held_at_the_close() {
    let place = Folder::in_memory("closed-grown");
    let durable = created(&place, options());
    update(&durable, 3);
    let closed_at = durable.entries().0;
    drop(durable);
    let durable = open(&place.0).unwrap();
    update(&durable, 3);
    let files = place.files();
    drop(durable);
    let journal = &files
        .iter()
        .find(|(name, _)| name == "journal-1")
        .unwrap()
        .1;
    let (mut older, mut newer) = (0, 0);
    for entry in entries(journal).iter().filter(|entry| entry.is_call()) {
        place.set(&files);
        fs::write(place.path("journal-1"), &journal[..entry.end]).unwrap();
        if entry.number < closed_at {
            refused(&place);
            older += 1;
        } else {
            assert_eq!(open(&place.0).unwrap().entries().0, entry.number);
            newer += 1;
        }
    }
    assert!(older > 0 && newer > 1);
}

/// A later generation's journal is another one; and what is left of the one before is none of the folder's any more.
#[test]
fn a_checkpoint_makes_the_note_void() {
    let place = Folder::in_memory("closed-void");
    let durable = created(&place, options());
    update(&durable, 3);
    drop(durable);
    let note = fs::read(place.path("closed")).unwrap();
    let durable = open(&place.0).unwrap();
    durable.checkpoint().unwrap();
    let files = place.files();
    drop(durable);
    place.set(&files);
    assert_eq!(fs::read(place.path("closed")).unwrap(), note);
    drop(open(&place.0).unwrap());
    assert_ne!(fs::read(place.path("closed")).unwrap(), note);
}

/// The note is no more open to others than the journal; and a link in its place is not followed.
#[test]
fn the_note_is_as_private_as_the_journal_and_no_link_is_followed() {
    let place = Folder::in_memory("closed-mode");
    let beside = Folder::in_memory("closed-mode-beside");
    let durable = created(&place, options());
    update(&durable, 1);
    let private = fs::Permissions::from_mode(0o600);
    fs::set_permissions(place.path("journal-1"), private).unwrap();
    drop(durable);
    let mode = fs::metadata(place.path("closed"))
        .unwrap()
        .permissions()
        .mode();
    assert_eq!(mode & 0o777, 0o600);

    let target = beside.path("target");
    fs::write(&target, "another's").unwrap();
    fs::remove_file(place.path("closed")).unwrap();
    symlink(&target, place.path("closed")).unwrap();
    let durable = open(&place.0).unwrap();
    update(&durable, 1);
    match durable.close().unwrap_err() {
        Failure::File(error) => {
            assert!(error.path().map_or(false, |path| path.ends_with("closed")))
        }
        other => panic!("{other}"),
    }
    drop(durable);
    assert_eq!(fs::read(&target).unwrap(), b"another's");
    open(&place.0).unwrap();
}
