use super::run::{copy, names, open, Run, Scratch};
use crate::disk::file::FileError;
use crate::disk::journal::{JournalError, JournalErrorKind};
use std::fs;
use std::path::{Path, PathBuf};

/// A folder with a saved store and three journals after it, of 20 entries each, closed.
struct Scene(Scratch);

impl Scene {
    fn new(name: &str) -> Scene {
        let scratch = Scratch::new(name);
        let mut run = Run::create(&scratch.file("folder"), 7);
        run.checkpoint();
        for _ in 0..2 {
            run.calls(20);
            run.folder.begin_generation().unwrap();
            run.folder.switch().unwrap();
        }
        run.calls(20);
        drop(run);
        let all = ["journal-2", "journal-3", "journal-4", "lock", "store-2"];
        assert_eq!(names(&scratch.file("folder")), all);
        Scene(scratch)
    }

    /// A copy of it, changed; it must be refused, and stay as it is.
    fn refused(&self, name: &str, change: impl FnOnce(&Path)) -> FileError {
        let path: PathBuf = self.0.file(name);
        copy(&self.0.file("folder"), &path);
        change(&path);
        let before = contents(&path);
        let refused = open(&path).unwrap_err();
        assert!(contents(&path) == before, "{name}");
        refused
    }

    fn journal_refused(&self, name: &str, change: impl FnOnce(&Path)) -> JournalError {
        match self.refused(name, change) {
            FileError::Journal(error) => error,
            other => panic!("{other}"),
        }
    }
}

fn contents(path: &Path) -> Vec<(String, Vec<u8>)> {
    let read = |name: String| {
        let bytes = fs::read(path.join(&name)).unwrap();
        (name, bytes)
    };
    let files = names(path).into_iter().filter(|name| name != "lock");
    files.map(read).collect()
}

/// Changes the bytes of a file.
fn edit(path: &Path, change: impl FnOnce(&mut Vec<u8>)) {
    let mut bytes = fs::read(path).unwrap();
    change(&mut bytes);
    fs::write(path, bytes).unwrap();
}

#[test]
fn a_damaged_saved_store_is_an_error_and_no_older_one_is_taken() {
    let scene = Scene::new("damaged-store");
    let refused = scene.refused("damaged", |path| {
        edit(&path.join("store-2"), |bytes| bytes[200] ^= 1);
    });
    let words = "store-2: the file is damaged: its checksum differs";
    assert_eq!(refused.to_string(), words);
    // the one before is there, whole, with its journals
    let refused = scene.refused("newer", |path| {
        fs::write(path.join("store-3"), "PITSTORE").unwrap();
    });
    assert!(matches!(refused, FileError::Saved { generation: 3, .. }));
    assert!(refused
        .to_string()
        .starts_with("store-3: the file is cut off"));
}

#[test]
fn a_missing_journal_is_an_error() {
    let scene = Scene::new("missing");
    for generation in [2, 3] {
        let name = format!("journal-{generation}");
        let refused = scene.refused(&name, |path| fs::remove_file(path.join(&name)).unwrap());
        assert!(matches!(refused, FileError::NoJournal(g) if g == generation));
    }
    let refused = scene.refused("all", |path| {
        for name in ["journal-2", "journal-3", "journal-4"] {
            fs::remove_file(path.join(name)).unwrap();
        }
    });
    assert_eq!(refused.to_string(), "journal-2 is not in the folder");
}

/// Of a journal that another goes on after, nothing may be cut off but notes: the last is that it has ended, and before it stands one
/// of its last sync.
#[test]
fn a_journal_that_ends_before_the_next_begins_is_an_error() {
    let scene = Scene::new("ended");
    let length = fs::metadata(scene.0.file("folder/journal-3"))
        .unwrap()
        .len();
    for cut in [113, 120, length - 64] {
        let error = scene.journal_refused(&format!("cut-{cut}"), |path| {
            edit(&path.join("journal-3"), |bytes| {
                bytes.truncate((length - cut) as usize);
            });
        });
        assert_eq!((error.generation, error.kind), (3, JournalErrorKind::Ended));
    }
    let error = scene.journal_refused("more", |path| {
        edit(&path.join("journal-3"), |bytes| bytes.push(0));
    });
    assert_eq!((error.generation, error.kind), (3, JournalErrorKind::Ended));
    assert_eq!((error.offset, error.entry), (length, 41));
}

#[test]
fn a_header_that_is_missing_or_anothers_is_an_error() {
    let scene = Scene::new("header");
    // saved stores and later journals are there only when it was whole
    for (name, length) in [("journal-2", 0), ("journal-2", 63), ("journal-3", 64 - 1)] {
        let error = scene.journal_refused(&format!("{name}-{length}"), |path| {
            edit(&path.join(name), |bytes| bytes.truncate(length));
        });
        assert_eq!((error.offset, error.kind), (0, JournalErrorKind::Header));
    }
    let error = scene.journal_refused("swapped", |path| {
        fs::rename(path.join("journal-3"), path.join("x")).unwrap();
        fs::rename(path.join("journal-4"), path.join("journal-3")).unwrap();
        fs::rename(path.join("x"), path.join("journal-4")).unwrap();
    });
    assert_eq!(
        (error.generation, error.kind),
        (3, JournalErrorKind::Generation(4))
    );
}

#[test]
fn every_damaged_byte_of_the_last_journal_is_an_error_or_loses_nothing() {
    let scene = Scene::new("last");
    let (whole, _) = open(&scene.0.file("folder")).unwrap();
    let bytes = fs::read(scene.0.file("folder/journal-4")).unwrap();
    // closed, its last entry is the note that all is synced
    let note = bytes.len() - 56;
    let path = scene.0.file("copy");
    copy(&scene.0.file("folder"), &path);
    for at in 0..bytes.len() {
        let mut damaged = bytes.clone();
        damaged[at] ^= 0x80;
        fs::write(path.join("journal-4"), &damaged).unwrap();
        match open(&path) {
            Ok((store, opened)) => {
                assert!(at >= note && store == whole);
                assert_eq!(opened.cut.unwrap().after, 60);
            }
            Err(FileError::Journal(error)) => {
                assert!(at < note);
                assert_eq!(error.kind == JournalErrorKind::Header, at < 64);
            }
            Err(other) => panic!("{other}"),
        }
    }
}
