use super::run::{copy, names, open, Run, Scratch};
use crate::disk::file::FileError;
use crate::disk::folder::closed::Closed;
use crate::disk::journal::tests::random::first_seed;
use crate::disk::journal::JournalErrorKind;
use std::fs;
use std::io;

/// Closed twice, and dropped after that, all is as after the first time.
#[test]
fn a_folder_that_is_closed_takes_no_more_and_keeps_its_lock() {
    let scratch = Scratch::new("close");
    let path = scratch.file("folder");
    let mut run = Run::create(&path, first_seed("close"));
    run.calls(20);
    run.folder.close().unwrap();
    let closed = Closed::read(&path).unwrap();
    let length = fs::metadata(path.join("journal-1")).unwrap().len();
    assert_eq!((closed.generation, closed.last), (1, 20));
    assert_eq!(closed.length, length);
    assert!(matches!(
        run.folder.journal().ready(),
        Err(FileError::Closed)
    ));
    assert!(matches!(
        run.folder.begin_generation(),
        Err(FileError::Closed)
    ));
    let written = || {
        fs::metadata(path.join("closed"))
            .unwrap()
            .modified()
            .unwrap()
    };
    let first = written();
    run.folder.close().unwrap();
    assert!(matches!(open(&path), Err(FileError::InUse { .. })));
    drop(run.folder);
    assert_eq!(written(), first);
    let (store, opened) = open(&path).unwrap();
    assert!(store == run.store && opened.cut.is_none());
    // opened and closed again without a call, nothing is written
    assert_eq!((written(), Closed::read(&path)), (first, Some(closed)));
    assert_eq!(fs::metadata(path.join("journal-1")).unwrap().len(), length);
}

/// A folder that is no longer where it was has its journal closed, and no note is written in another's place.
#[test]
fn a_folder_that_was_moved_is_noted_nowhere() {
    let scratch = Scratch::new("close-moved");
    let path = scratch.file("folder");
    let mut run = Run::create(&path, 1);
    run.calls(5);
    fs::rename(&path, scratch.file("moved")).unwrap();
    drop(Run::create(&path, 2));
    let before = Closed::read(&path);
    assert!(matches!(run.folder.close(), Err(FileError::FolderMoved)));
    drop(run);
    assert_eq!(Closed::read(&path), before);
    assert_eq!(open(&scratch.file("moved")).unwrap().1.entries, 5);
}

/// After a failure nothing is noted; opened anew under the same lock the folder goes on, with checkpoints too.
#[test]
fn a_folder_whose_journal_failed_is_opened_anew() {
    let scratch = Scratch::new("reopen");
    let path = scratch.file("folder");
    let mut run = Run::create(&path, first_seed("reopen"));
    for round in 0..4 {
        run.calls(20);
        if round == 1 {
            // one that was begun, and goes on in the next journal
            run.folder.begin_generation().unwrap();
            run.folder.switch().unwrap();
            run.calls(5);
        }
        let failed = run.folder.journal();
        failed.fail(&io::Error::from(io::ErrorKind::Other));
        let refused = run.folder.close().unwrap_err();
        assert!(matches!(refused, FileError::JournalFailed { .. }));
        assert!(Closed::read(&path).is_none());

        let (store, _, opened) = run.folder.reopen().unwrap();
        assert!(store == run.store && opened.cut.is_none(), "{round}");
        assert!(matches!(open(&path), Err(FileError::InUse { .. })));
        assert!(failed.ready().is_err());
        run.folder.journal().ready().unwrap();
        run.calls(5);
        run.checkpoint();
    }
    run.calls(5);
    run.folder.close().unwrap();
    let (store, _, _) = run.folder.reopen().unwrap(); // also where it was closed
    assert!(store == run.store);
    run.calls(5);
    drop(run.folder);
    let (store, _) = open(&path).unwrap();
    assert!(store == run.store);
    assert_eq!(names(&path), ["journal-6", "lock", "store-6"]);
}

/// A folder that cannot be read anew stays as it was, and can be tried again.
#[test]
fn a_folder_that_cannot_be_opened_anew_can_be_later() {
    let scratch = Scratch::new("reopen-later");
    let path = scratch.file("folder");
    let mut run = Run::create(&path, 3);
    run.calls(20);
    run.folder.close().unwrap();
    let (journal, aside) = (path.join("journal-1"), scratch.file("aside"));
    fs::rename(&journal, &aside).unwrap();
    assert!(matches!(run.folder.reopen(), Err(FileError::NoJournal(1))));
    assert!(matches!(
        run.folder.journal().ready(),
        Err(FileError::Closed)
    ));
    fs::rename(&aside, &journal).unwrap();
    assert!(run.folder.reopen().unwrap().0 == run.store);
    run.calls(5);
}

/// The note of a close is of one journal: of that of another generation, or of another folder, it says nothing; nor does it where it is
/// damaged at any byte.
#[test]
fn a_note_of_another_journal_or_a_damaged_one_says_nothing() {
    let scratch = Scratch::new("close-other");
    let path = scratch.file("folder");
    let mut run = Run::create(&path, 4);
    run.calls(20);
    let killed = scratch.file("killed");
    copy(&path, &killed);
    let short = fs::read(killed.join("journal-1")).unwrap();
    run.calls(1);
    drop(run.folder);
    let note = fs::read(path.join("closed")).unwrap();
    assert_eq!(note.len(), 56);

    let opens = |note: &[u8]| {
        fs::write(killed.join("closed"), note).unwrap();
        fs::write(killed.join("journal-1"), &short).unwrap();
        open(&killed)
    };
    match opens(&note) {
        Err(FileError::Journal(error)) => {
            assert_eq!((error.generation, error.entry), (1, 21));
            assert_eq!(error.kind, JournalErrorKind::ShorterThanClosed { last: 21 });
        }
        other => panic!("{other:?}"),
    }
    for at in 0..note.len() {
        let mut damaged = note.clone();
        damaged[at] ^= 1;
        opens(&damaged).unwrap();
        opens(&note[..at]).unwrap();
    }
    opens(&[&note[..], &[0]].concat()).unwrap();
    let other = scratch.file("other");
    let mut run = Run::create(&other, 5);
    run.calls(50);
    drop(run);
    opens(&fs::read(other.join("closed")).unwrap()).unwrap();
}
