//! A folder in which a process with one thread has worked, and the store that its calls leave in memory.

use super::child::{say, Part};
use crate::folder::Folder;
use crate::support::in_memory::{as_seen, Model};
use crate::support::script::Script;
use pit_host::{Durable, Failure, FileError, Opened, Options, Store, SyncAt};

fn is_none_yet(failure: &Failure) -> bool {
    matches!(failure, Failure::File(FileError::NoStore))
}

/// The folder's store, made where there is none yet.
pub fn open(part: &Part<'_>, store: Store, options: Options) -> Durable {
    match Durable::open(part.folder, options) {
        Err(failure) if is_none_yet(&failure) => {
            Durable::create(part.folder, store, options).unwrap()
        }
        opened => opened.unwrap().0,
    }
}

/// Says what a call was answered, and how far the journal is then.
pub fn report(durable: &Durable, answer: &str) {
    let (written, synced) = durable.entries();
    say(&format!("{written} {synced} {answer}"));
}

/// What a process has reported of a call that has returned; first of all, of the opening.
pub struct Report {
    pub written: u64,
    pub synced: u64,
    pub answer: String,
}

impl Report {
    fn of(words: &str) -> Option<Report> {
        let mut parts = words.splitn(3, ' ');
        let written = parts.next()?.parse().ok()?;
        Some(Report {
            written,
            synced: parts.next()?.parse().ok()?,
            answer: parts.next()?.to_string(),
        })
    }

    /// All that was reported.
    pub fn all(said: &[String]) -> Vec<Report> {
        said.iter().filter_map(|words| Report::of(words)).collect()
    }
}

/// What a call is answered that could not be done, for a file that could not be written.
pub const FAILED: &str = "failed";

pub struct Site {
    pub seed: u64,
    pub folder: Folder,
    /// Where the folder is opened as a process has left it; the next process finds it untouched.
    beside: Folder,
    pub options: Options,
    pub model: Model,
}

impl Site {
    pub fn new(test: &str, seed: u64, store: Store, options: Options) -> Site {
        Site {
            seed,
            folder: Folder::new(&format!("{test}-{seed}")),
            beside: Folder::in_memory(&format!("{test}-beside-{seed}")),
            options,
            model: Model::new(store),
        }
    }

    pub fn part<'a>(&'a self, name: &'a str, run: u64) -> Part<'a> {
        Part {
            name,
            folder: &self.folder.0,
            seed: self.seed,
            run,
        }
    }

    /// The folder opened beside; none where it has no store yet.
    pub fn opened(&self) -> Option<(Durable, Opened)> {
        self.beside.set(&self.folder.files());
        match Durable::open(&self.beside.0, self.options) {
            Err(failure) if is_none_yet(&failure) => None,
            opened => Some(opened.unwrap()),
        }
    }

    /// The names of the files beside.
    pub fn names(&self) -> Vec<String> {
        self.beside.names()
    }

    /// Makes the calls that have returned, as far as they are in the store that was found, and what is there of the next one: then
    /// the stores are equal. Gives how many have returned, and whether there was something of the next.
    pub fn follow(
        &mut self,
        found: &Durable,
        script: &mut Script,
        reports: &[Report],
    ) -> (usize, bool) {
        let entries = found.entries().0;
        let mut there = reports
            .iter()
            .take_while(|report| report.written <= entries);
        if let Some(opened) = there.next() {
            assert_eq!(opened.written, self.model.entries, "as it was opened");
        }
        let returned = there.map(|report| self.make(script, report)).count();
        // an entry may leave the store as it was, and a rebuild has none
        let has_more = self.model.entries < entries || !self.is_as(found);
        if has_more {
            let call = script.next(&self.model.store);
            self.model.make_up_to(&call, entries);
            assert_eq!(self.model.entries, entries, "{call:?}");
            assert!(self.is_as(found), "another store, after {call:?}");
        }
        (returned, has_more)
    }

    /// Makes a call that has returned.
    fn make(&mut self, script: &mut Script, report: &Report) {
        let call = script.next(&self.model.store);
        if report.answer != FAILED {
            let answer = self.model.make(&call);
            assert_eq!(answer, report.answer, "{call:?}");
        }
        assert_eq!(self.model.entries, report.written, "{call:?}");
        assert!(report.synced >= self.promised(), "{call:?}");
    }

    /// The last entry that is synced by the policy when a call has returned.
    fn promised(&self) -> u64 {
        match self.options.sync {
            SyncAt::EachCall => self.model.entries,
            SyncAt::EachPublish => self.model.relied_on,
            _ => 0,
        }
    }

    fn is_as(&self, found: &Durable) -> bool {
        let model = &self.model.store;
        as_seen(found) == as_seen(model) && found.to_store() == model.to_store()
    }
}
