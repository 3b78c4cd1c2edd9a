use super::run::{copy, names, open, Run, Scratch};
use crate::calls::difference::Difference;
use crate::disk::file::FileError;
use crate::disk::folder::{earlier, Comparison, Folder, Options};
use crate::disk::journal::tests::random::first_seed;
use crate::disk::journal::tests::support::call::Begin;
use crate::disk::journal::JournalErrorKind;
use std::fs;
use std::path::PathBuf;

/// The length of the note at the end of a journal that has ended.
const NOTE: usize = 56;

/// Copies of a folder at each step, each with the store that it must open to.
struct Copies {
    scratch: Scratch,
    count: usize,
}

impl Copies {
    /// Copies the folder of a run, and checks that the copy opens to the run's store; and that it does so a second time, when
    /// the first has cut off and removed what it had to.
    fn check(&mut self, run: &Run) -> PathBuf {
        self.count += 1;
        let path = self.scratch.file(&format!("copy-{}", self.count));
        copy(&run.folder.path, &path);
        for _ in 0..2 {
            let (store, _) = open(&path).unwrap();
            assert!(store == run.store, "copy {}", self.count);
        }
        path
    }
}

fn begin(name: &str) -> (Run, Copies) {
    let scratch = Scratch::new(name);
    let run = Run::create(&scratch.file("folder"), first_seed(name));
    (run, Copies { scratch, count: 0 })
}

#[test]
fn a_folder_opens_to_the_same_store_after_each_step_of_a_checkpoint() {
    let (mut run, mut copies) = begin("steps");
    copies.check(&run);
    for _ in 0..3 {
        run.calls(40);
        copies.check(&run);
        run.folder.begin_generation().unwrap();
        copies.check(&run);
        run.calls(5);
        copies.check(&run);
        run.folder.switch().unwrap();
        copies.check(&run);
        let saved = run.store.clone();
        run.calls(20);
        copies.check(&run);
        let place = run.folder.settle().unwrap();
        copies.check(&run);
        saved.save_at(&place).unwrap();
        copies.check(&run);
        run.calls(20);
        let path = copies.check(&run);
        run.folder.end_generation().unwrap();
        copies.check(&run);
        // opening has removed what ending it would have
        assert_eq!(names(&path), names(&run.folder.path));
    }
    assert_eq!(names(&run.folder.path), ["journal-4", "lock", "store-4"]);
}

/// Under a switch the entries before it may not be written yet, though the store is already copied.
#[test]
fn nothing_is_saved_before_the_next_journal_has_begun() {
    let (mut run, mut copies) = begin("unwritten");
    run.calls(10);
    run.folder.begin_generation().unwrap();
    run.folder.switch().unwrap();
    let empty = run.folder.path.join("journal-2");
    assert_eq!(fs::metadata(&empty).unwrap().len(), 0);
    let place = run.folder.settle().unwrap();
    assert_eq!(fs::metadata(&empty).unwrap().len(), 64);
    run.store.save_at(&place).unwrap();
    copies.check(&run);
}

/// The header of the next journal is torn at every byte: the one before does not yet say that it has ended. Where it does, the next one
/// was lost.
#[test]
fn a_journal_that_was_only_being_begun_counts_as_none() {
    let (mut run, copies) = begin("begun");
    run.calls(30);
    run.folder.begin_generation().unwrap();
    run.folder.switch().unwrap();
    run.folder.settle().unwrap();
    let header = fs::read(run.folder.path.join("journal-2")).unwrap();
    assert_eq!(header.len(), 64);
    for length in 0..64 {
        let path = copies.scratch.file(&format!("torn-{length}"));
        copy(&run.folder.path, &path);
        fs::write(path.join("journal-2"), &header[..length]).unwrap();
        let refused = open(&path).unwrap_err();
        assert!(matches!(refused, FileError::Journal(e) if e.kind == JournalErrorKind::Header));

        let before = fs::read(path.join("journal-1")).unwrap();
        fs::write(path.join("journal-1"), &before[..before.len() - NOTE]).unwrap();
        let (store, opened) = open(&path).unwrap();
        assert!(store == run.store);
        assert_eq!((opened.journals, opened.cut), (1, None));
        assert_eq!(names(&path), ["journal-1", "lock", "store-1"]);
    }
}

#[test]
fn checkpoints_that_fail_leave_journals_that_are_read_in_turn() {
    let (mut run, mut copies) = begin("failed");
    for generation in 2..6 {
        run.calls(15);
        run.folder.begin_generation().unwrap();
        run.folder.begin_generation().unwrap(); // once more, after it was given up
        assert_eq!(run.folder.switch(), Some(generation));
        assert_eq!(run.folder.switch(), None);
        // and the store is not saved
        assert!(run.folder.end_generation().is_err());
        copies.check(&run);
    }
    run.calls(15);
    let path = copies.check(&run);
    let all = [
        "journal-1",
        "journal-2",
        "journal-3",
        "journal-4",
        "journal-5",
        "lock",
        "store-1",
    ];
    assert_eq!(names(&path), all);
    let (_, opened) = open(&path).unwrap();
    assert_eq!(
        (opened.generation, opened.journals, opened.entries),
        (1, 5, 75)
    );
    run.checkpoint();
    let path = copies.check(&run);
    assert_eq!(names(&path), ["journal-6", "lock", "store-6"]);
}

#[test]
fn an_opened_folder_goes_on_and_makes_checkpoints() {
    let (mut run, copies) = begin("goes-on");
    let path = copies.scratch.file("folder");
    for round in 0..6 {
        run.calls(25);
        if round % 2 == 0 {
            run.checkpoint();
        }
        run.calls(3);
        let former = run.store.clone();
        drop(run.folder);
        let (store, _, folder, opened) = Folder::open(&path, Options::new()).unwrap();
        assert!(store == former);
        assert_eq!(opened.cut, None);
        run.folder = folder;
        run.store = store;
    }
    assert_eq!(run.folder.generation(), 4);
    run.folder.journal().ready().unwrap();
}

#[test]
fn a_checkpoint_is_due_by_the_journals_length() {
    let scratch = Scratch::new("due");
    for (k, (at, due)) in [(0, false), (64, true), (65, false)]
        .into_iter()
        .enumerate()
    {
        let path = scratch.file(&k.to_string());
        let store = crate::disk::journal::tests::scene::empty_store();
        let options = Options::new().checkpoint_at(at);
        let folder = Folder::create(path, &store, options).unwrap();
        assert_eq!(folder.is_due(), due);
    }
}

/// A saved store is compared with what the calls before it make, where they are still there.
#[test]
fn a_saved_store_that_the_calls_before_it_do_not_make_is_told() {
    let (mut run, _copies) = begin("earlier");
    let path = run.folder.path.clone();
    run.calls(30);
    run.folder.begin_generation().unwrap();
    run.folder.switch().unwrap();
    let place = run.folder.settle().unwrap();
    run.store.save_at(&place).unwrap();
    let compared = || earlier(&path).unwrap()[0].comparison;
    assert_eq!(compared(), Comparison::Same);
    let mut other = run.store.clone();
    other.windows_are("1,2\n3,4\n5,6\n");
    other.save_at(&place).unwrap();
    assert_eq!(compared(), Comparison::Differs(Difference::Windows));
}
