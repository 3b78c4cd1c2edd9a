//! Journals cut off at every byte, and checkpoints broken off at every byte: the folder opens to the store that the whole entries
//! leave. `PIT_CALLS` is how many calls the journals have, `PIT_SEED` the seed.

use crate::folder::Folder;
use crate::random::{first_seed, named};
use crate::support::call::{make_durable, words, Begin, Call};
use crate::support::entries::{ahead, entries, Entry, HEADER};
use crate::support::in_memory::Model;
use crate::support::script::Script;
use pit_host::{
    Durable, Failure, FileError, JournalError, JournalErrorKind, Limits, Opened, Options, Store,
};
use std::fs;

/// How many calls a journal has where nothing else is said.
const CALLS: u64 = 160;
/// The length of a note.
const NOTE: usize = 56;

/// Just what the calls ask for: a journal is followed by the next where a test says so.
fn options() -> Options {
    Options::new().checkpoint_at(0)
}

/// A folder with a store in work, and the same store in memory after each entry.
struct Run {
    folder: Folder,
    durable: Option<Durable>,
    script: Script,
    model: Model,
}

impl Run {
    fn new(test: &str) -> Run {
        let calls = named("PIT_CALLS", CALLS);
        let limits = Limits::new(16, calls, 5 * calls, calls.min(8_000) / 2);
        let store = Store::format(limits).unwrap();
        let folder = Folder::in_memory(&format!("cuts-{test}"));
        let script = Script::without_files(first_seed(test));
        Run {
            durable: Some(Durable::create(&folder.0, store.clone(), options()).unwrap()),
            model: Model::keeping(store),
            folder,
            script,
        }
    }

    /// One of so many parts of all calls.
    fn make_part(&mut self, parts: u64) {
        let durable = self.durable.as_ref().unwrap();
        for _ in 0..named("PIT_CALLS", CALLS) / parts {
            let call = self.script.next(durable);
            let answer = words(make_durable(durable, &call)).unwrap();
            assert_eq!(answer, self.model.make(&call), "{call:?}");
        }
    }

    /// A checkpoint that fails, so that the next journal is begun and the store is not saved.
    fn fail_a_checkpoint(&mut self, generation: u64) {
        let in_the_way = self.folder.path(&format!("store-{generation}"));
        fs::create_dir(&in_the_way).unwrap();
        self.durable.as_ref().unwrap().checkpoint().unwrap_err();
        fs::remove_dir(in_the_way).unwrap();
    }

    /// Closes the folder. Gives a journal's bytes.
    fn close(&mut self, generation: u64) -> Vec<u8> {
        self.durable = None;
        fs::read(self.journal(generation)).unwrap()
    }

    fn journal(&self, generation: u64) -> std::path::PathBuf {
        self.folder.path(&format!("journal-{generation}"))
    }

    /// Opens it as after a crash: it was not closed.
    fn open(&self) -> Result<(Durable, Opened), Failure> {
        let _ = fs::remove_file(self.folder.path("closed"));
        Durable::open(&self.folder.0, options())
    }

    /// The store that was found is the one after so many entries.
    fn assert_after(&self, durable: &Durable, number: u64) {
        assert_eq!(durable.entries().0, number);
        let is_due = self.model.had(number, &durable.to_store());
        assert!(is_due, "after entry {number}");
    }
}

fn flaw_of(opened: Result<(Durable, Opened), Failure>) -> JournalError {
    match opened {
        Err(Failure::File(FileError::Journal(error))) => error,
        Err(other) => panic!("{other}"),
        Ok((_, opened)) => panic!("{opened}"),
    }
}

/// The last of a journal's entries that are whole in so many bytes, and the number of the last call among them.
fn whole(all: &[Entry], length: usize, before: u64) -> (usize, u64) {
    let whole = all.iter().take_while(|entry| entry.end <= length);
    let end = whole.clone().map(|entry| entry.end).last();
    let last = whole.filter(|entry| entry.is_call()).last();
    (end.unwrap_or(HEADER), last.map_or(before, |e| e.number))
}

/// Opens a folder whose last journal has so many bytes of all of its entries, the header among them, and behind them, where it is so,
/// what was written ahead.
fn assert_cut(run: &Run, all: &[Entry], length: usize, before: u64) {
    let (end, last) = whole(all, length, before);
    let (durable, opened) = run.open().unwrap();
    run.assert_after(&durable, last);
    match opened.cut {
        None => assert_eq!(length, end),
        Some(cut) => {
            assert_eq!((cut.after, cut.offset as usize), (last, end));
            assert_eq!((cut.bytes as usize, cut.torn), (length - end, true));
            assert_eq!(cut.whole, 0);
            assert!(length > end);
        }
    }
    if length % 16 == 0 {
        assert_goes_on(run, durable, last);
    }
}

/// What is written next is there at the next opening, and nothing of what was cut off.
fn assert_goes_on(run: &Run, durable: Durable, last: u64) {
    durable.windows_are("1,2\n");
    drop(durable);
    let (again, opened) = run.open().unwrap();
    assert!(opened.cut.is_none() && again.entries().0 == last + 1);
    assert_eq!(again.windows().to_string(), "1,2\n");
}

#[test]
fn a_journal_that_is_cut_at_any_byte_gives_the_store_of_its_whole_entries() {
    let mut run = Run::new("a_journal_that_is_cut_at_any_byte");
    run.make_part(1);
    let (journal, path) = (run.close(1), run.journal(1));
    let all = entries(&journal);
    for length in 0..=journal.len() {
        fs::write(&path, &journal[..length]).unwrap();
        if length >= HEADER {
            assert_cut(&run, &all, length, 0);
            continue;
        }
        // no crash leaves that: the header is on the disk before there is a store
        assert_eq!(flaw_of(run.open()).kind, JournalErrorKind::Header);
        assert_eq!(fs::read(&path).unwrap(), &journal[..length]);
    }
    println!("{} bytes, {} entries", journal.len(), run.model.entries);
}

/// As a process leaves it that is killed while it writes in the place of what was written ahead.
#[test]
fn a_journal_that_is_written_up_to_any_byte_gives_the_store_of_its_whole_entries() {
    let mut run = Run::new("a_journal_that_is_written_up_to_any_byte");
    run.make_part(2);
    let (journal, path) = (run.close(1), run.journal(1));
    let all = entries(&journal);
    for length in HEADER..=journal.len() {
        let rest = ahead(&journal, length, 50);
        fs::write(&path, [&journal[..length], &rest].concat()).unwrap();
        // bytes that happen to be those that were written ahead are neither missed nor left
        let is_same = |at: &usize| journal[*at] == ahead(&journal, *at, 1)[0];
        let upto = length + (length..journal.len()).take_while(is_same).count();
        let (end, _) = whole(&all, upto, 0);
        let upto = upto - (end..upto).rev().take_while(is_same).count();
        assert_cut(&run, &all, upto, 0);
    }
}

/// In the middle of a checkpoint: the journal before is whole, and the last one may be cut anywhere.
#[test]
fn the_last_of_three_journals_may_be_cut_at_any_byte_and_no_other() {
    let mut run = Run::new("the_last_of_three_journals");
    for generation in 2..=3 {
        run.make_part(6);
        run.fail_a_checkpoint(generation);
    }
    let before = run.model.entries;
    run.make_part(6);
    let (last, path) = (run.close(3), run.journal(3));
    let each = entries(&last);
    for length in 0..=last.len() {
        fs::write(&path, &last[..length]).unwrap();
        if length >= HEADER {
            assert_cut(&run, &each, length, before);
            continue;
        }
        // the one before says that this one goes on after it
        let error = flaw_of(run.open());
        assert_eq!(
            (error.generation, error.kind),
            (3, JournalErrorKind::Header)
        );
        // while this one was only being begun, it did not
        let ended = fs::read(run.journal(2)).unwrap();
        fs::write(run.journal(2), &ended[..ended.len() - NOTE]).unwrap();
        let (durable, opened) = run.open().unwrap();
        run.assert_after(&durable, before);
        assert_eq!((opened.journals, opened.cut), (2, None));
        assert!(!path.exists());
        fs::write(run.journal(2), ended).unwrap();
    }
    fs::write(&path, &last).unwrap();
    let all = run.model.entries;
    (1..=2).for_each(|generation| assert_not_cut(&run, generation, all));
}

/// A journal that another goes on after is not cut in silence at any byte; only notes may be gone, and that it has ended is noted anew.
fn assert_not_cut(run: &Run, generation: u64, all: u64) {
    let path = run.journal(generation);
    let journal = fs::read(&path).unwrap();
    let each = entries(&journal);
    let last_call = each.iter().rev().find(|entry| entry.is_call()).unwrap().end;
    for length in 0..=journal.len() {
        fs::write(&path, &journal[..length]).unwrap();
        let opened = run.open();
        if length >= last_call {
            run.assert_after(&opened.unwrap().0, all);
            let (end, _) = whole(&each, length.min(journal.len() - 1), 0);
            let noted = [&journal[..end], &journal[journal.len() - NOTE..]].concat();
            assert_eq!(fs::read(&path).unwrap(), noted);
            continue;
        }
        let error = flaw_of(opened);
        let due = if length < HEADER {
            JournalErrorKind::Header
        } else {
            JournalErrorKind::Ended
        };
        assert_eq!((error.generation, error.kind), (generation, due));
        assert_eq!(fs::read(&path).unwrap(), &journal[..length]);
    }
    fs::write(&path, journal).unwrap();
}

// Checkpoints.

/// The names in the folder of a store of generation 1 with these journals.
fn names(journals: &[u64]) -> Vec<String> {
    let journals = journals.iter().map(|g| format!("journal-{g}"));
    journals
        .chain(["lock", "store-1"].map(String::from))
        .collect()
}

/// A checkpoint broken off at every byte that it writes, of the next journal's header and of the saved store.
#[test]
fn a_checkpoint_that_is_broken_off_at_any_byte_changes_nothing() {
    let mut run = Run::new("a_checkpoint_that_is_broken_off");
    run.make_part(2);
    let durable = run.durable.as_ref().unwrap();
    durable.sync().unwrap();
    let (before, in_work) = (run.folder.files(), run.model.entries);
    durable.checkpoint().unwrap();
    let saved = fs::read(run.folder.path("store-2")).unwrap();
    run.make_part(20);
    let (journal, all) = (run.close(2), run.model.entries);

    run.folder.set(&before);
    for length in 0..=HEADER {
        fs::write(run.journal(2), &journal[..length]).unwrap();
        let (durable, opened) = run.open().unwrap();
        run.assert_after(&durable, in_work);
        assert!(opened.cut.is_none() && opened.generation == 1);
        let journals = 1 + u64::from(length == HEADER);
        assert_eq!(opened.journals, journals);
        assert_eq!(run.folder.names(), names(&[1, 2][..journals as usize]));
    }
    fs::write(run.journal(2), &journal).unwrap();
    let half_saved = run.folder.path(".pit-4711-0.new");
    for length in 0..=saved.len() {
        fs::write(&half_saved, &saved[..length]).unwrap();
        let (durable, opened) = run.open().unwrap();
        run.assert_after(&durable, all);
        assert!(opened.cut.is_none() && opened.generation == 1);
        assert_eq!(run.folder.names(), names(&[1, 2]));
    }
    println!("a saved store of {} bytes", saved.len());
}

/// A rebuild broken off at every byte that it writes. Its journal is no use without its store, and is not read after the one before.
#[test]
fn a_rebuild_that_is_broken_off_at_any_byte_changes_nothing() {
    let mut run = Run::new("a_rebuild_that_is_broken_off");
    run.make_part(4);
    let durable = run.durable.as_ref().unwrap();
    durable.sync().unwrap();
    let (before, in_work) = (run.folder.files(), durable.to_store());
    let mut limits = durable.limits();
    limits.pages += 1;
    let rebuild = Call::Rebuild(limits, vec![], vec![]);
    let answer = words(make_durable(durable, &rebuild)).unwrap();
    assert_eq!(answer, run.model.make(&rebuild));
    let saved = fs::read(run.folder.path("store-2")).unwrap();
    run.make_part(20);
    let journal = run.close(2);

    run.folder.set(&before);
    let half_saved = run.folder.path(".pit-4711-0.new");
    for length in 0..=HEADER + saved.len() {
        fs::write(run.journal(2), &journal[..length.min(HEADER)]).unwrap();
        if length > HEADER {
            fs::write(&half_saved, &saved[..length - HEADER]).unwrap();
        }
        let (durable, opened) = run.open().unwrap();
        assert!(durable.to_store() == in_work, "of {length} bytes");
        assert!(opened.cut.is_none() && opened.journals == 1);
        assert_eq!(run.folder.names(), names(&[1]));
    }
    fs::write(run.journal(2), &journal).unwrap();
    assert_eq!(flaw_of(run.open()).kind, JournalErrorKind::OtherStore);
    fs::write(run.folder.path("store-2"), &saved).unwrap();
    run.assert_after(&run.open().unwrap().0, run.model.entries);
}

/// From the moment at which the saved store has its name, each file of the generation before may be there or not.
#[test]
fn what_a_checkpoint_has_not_yet_removed_makes_no_difference() {
    let mut run = Run::new("what_a_checkpoint_has_not_yet_removed");
    run.make_part(2);
    run.fail_a_checkpoint(2);
    run.make_part(6);
    let old = {
        run.durable.as_ref().unwrap().sync().unwrap();
        run.folder.files()
    };
    run.durable.as_ref().unwrap().checkpoint().unwrap();
    run.make_part(6);
    run.durable = None;
    let new = run.folder.files();
    for left in 0..1 << old.len() {
        let old = (0..).zip(&old).filter(|(at, _)| left >> at & 1 == 1);
        let files = new.iter().chain(old.map(|(_, file)| file)).cloned();
        run.folder.set(&files.collect::<Vec<_>>());
        let (durable, opened) = run.open().unwrap();
        run.assert_after(&durable, run.model.entries);
        assert_eq!((opened.generation, opened.journals), (3, 1));
        assert_eq!(run.folder.names(), ["journal-3", "lock", "store-3"]);
    }
}
