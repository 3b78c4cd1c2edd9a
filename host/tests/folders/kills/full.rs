//! A disk that is full, as a process finds it that may write no longer files: what returned is kept, and what could not be
//! kept has not returned.

use super::child::{kill, start, KillPoint, Part};
use super::site::{open, report, Report, Site, FAILED};
use crate::random::{first_seed, ShownSeed};
use crate::support::call::{each, make_durable, words, Call, Update};
use crate::support::script::Script;
use pit_host::{
    ByteOffset, Durable, Failure, FileError, Limits, Line, Minute, Options, Shared, Store, SyncAt,
    Ticket, Version,
};

/// No file may be longer than some dozen kilobytes, and a write that would make one so is an error.
const NO_ROOM: &str = "trap '' XFSZ; ulimit -f 64; ";
/// Far more calls than a journal has room for then; and some with checkpoints in between.
const CALLS: u64 = 1_000;
const CALLS_UNSAVED: u64 = 400;

fn store() -> Store {
    Store::format(Limits::new(64, 1_000, 6_000, 500)).unwrap()
}

// A journal that cannot grow.

/// Nothing but the journal.
fn journal_alone(seed: u64) -> (Script, Options) {
    let sync = [SyncAt::EachCall, SyncAt::EachPublish][(seed % 2) as usize];
    (
        Script::without_files(seed),
        Options::new().sync(sync).checkpoint_at(0),
    )
}

/// Makes calls until the journal has no room, and then finds every other refused in the same words, and readers going on.
pub fn fill_the_journal(part: &Part<'_>) {
    let (mut script, options) = journal_alone(part.seed);
    let durable = open(part, store(), options);
    report(&durable, "opened");
    for _ in 0..CALLS {
        let seen = seen(&durable);
        let call = script.next(&durable);
        match words(make_durable(&durable, &call)) {
            Ok(answer) => report(&durable, &answer),
            Err(failure) => {
                assert!(matches!(
                    failure,
                    Failure::File(FileError::JournalFailed { .. })
                ));
                assert_eq!(self::seen(&durable), seen, "as before {call:?}");
                return refuses_all(&durable, &failure.to_string());
            }
        }
    }
    panic!("the journal has room for {CALLS} calls");
}

/// All that readers see: every published version, with its bytes.
fn seen(durable: &Durable) -> Vec<(Line, Version, Vec<u8>)> {
    let mut seen = Vec::new();
    for line in (0..16).map(Line) {
        let recent = durable.recent(line).map_or(0, |recent| recent.0 + 1);
        for version in (0..recent).map(Version) {
            let mut bytes = vec![0; durable.size(line, version).unwrap() as usize];
            durable
                .read(line, version, ByteOffset(0), &mut bytes)
                .unwrap();
            seen.push((line, version, bytes));
        }
    }
    seen
}

fn refuses_all(durable: &Durable, words: &str) {
    let (line, ticket, page) = (Line(0), Ticket(1), vec![7; 64]);
    let mut calls = each(line, Version(0), [ticket; 3], &page);
    calls.retain(|call| call.changes() && !matches!(call, Call::Publish(..))); // nothing is due there
    calls.extend([
        Call::Begin(0),
        Call::Update(Update {
            line,
            at: None,
            pages: vec![page],
            minute: Minute(0),
        }),
        Call::Finish(ticket, Minute(0)),
        Call::Checkpoint,
        Call::Rebuild(durable.limits(), vec![], vec![]),
    ]);
    for call in calls {
        let failure = make_durable(durable, &call).expect_err("the journal has failed");
        assert_eq!(failure.to_string(), words, "{call:?}");
    }
    // what returned is synced, where the policy is so
    let (written, synced) = durable.entries();
    assert!(durable.sync().is_err() || written == synced);
}

#[test]
fn a_journal_that_cannot_grow_keeps_what_returned() {
    let first = first_seed("a_journal_that_cannot_grow_keeps_what_returned");
    for seed in (0..4).map(|at| first.wrapping_add(at)) {
        let _shown = ShownSeed(seed);
        let (mut script, options) = journal_alone(seed);
        let mut site = Site::new("kills-full", seed, store(), options);
        let child = start(&site.part("full journal", 0), NO_ROOM);
        let (said, _) = kill(child, KillPoint::NEVER);
        let reports = Report::all(&said);
        let (found, _) = site.opened().unwrap();
        assert!(found.entries().0 >= reports.last().unwrap().written);
        let (returned, _) = site.follow(&found, &mut script, &reports);
        assert_eq!(returned + 1, reports.len());
        found.begin(1).unwrap(); // with room again it goes on
    }
}

// A store that cannot be saved.

fn with_checkpoints(seed: u64) -> (Script, Options) {
    let options = Options::new().sync(SyncAt::EachPublish);
    (Script::new(seed), options.checkpoint_at(2_000))
}

/// A store whose last version no file has room for: with it no store is saved, or rebuilt.
fn large_store() -> Store {
    let store = Store::format(Limits::new(64, 2_000, 20_000, 300)).unwrap();
    let shared = Shared::new(store);
    shared.set_clock(|| Minute(0));
    for fill in 1..=12 {
        let page: &[u8] = &[fill; 64];
        shared.append_pages(Line(0), &[page; 60]).unwrap();
    }
    shared.to_store()
}

/// Makes calls while checkpoints and rebuilds fail.
pub fn fill_the_disk(part: &Part<'_>) {
    let (mut script, options) = with_checkpoints(part.seed);
    let (durable, _) = Durable::open(part.folder, options).unwrap();
    report(&durable, "opened");
    for at in 0..CALLS_UNSAVED {
        // also so that no journal gets too long, whatever the thread does that makes checkpoints by itself
        if at % 20 == 0 {
            durable.checkpoint().unwrap_err();
        }
        if at % 100 == 50 {
            durable.rebuild(durable.limits(), &[]).unwrap_err();
        }
        let call = script.next(&durable);
        let answer = words(make_durable(&durable, &call)).unwrap_or_else(|failure| {
            let is_saved = matches!(call, Call::Checkpoint | Call::Rebuild(..));
            assert!(is_saved, "{failure}");
            assert!(matches!(failure, Failure::File(FileError::Io { .. })));
            FAILED.to_string()
        });
        report(&durable, &answer);
    }
}

#[test]
fn a_store_that_cannot_be_saved_goes_on_in_its_journals() {
    let first = first_seed("a_store_that_cannot_be_saved_goes_on_in_its_journals");
    for seed in (0..3).map(|at| first.wrapping_add(at)) {
        let _shown = ShownSeed(seed);
        let (mut script, options) = with_checkpoints(seed);
        let mut site = Site::new("kills-unsaved", seed, large_store(), options);
        drop(Durable::create(&site.folder.0, large_store(), options).unwrap());
        let child = start(&site.part("full disk", 0), NO_ROOM);
        let (said, _) = kill(child, KillPoint::NEVER);
        let reports = Report::all(&said);
        let (found, opened) = site.opened().unwrap();
        assert!(opened.journals > 2, "{opened}");
        let (returned, has_more) = site.follow(&found, &mut script, &reports);
        assert_eq!((returned + 1, has_more), (reports.len(), false));
        found.checkpoint().unwrap(); // with room again it is saved, and all else is needed no more
        let names = site.names(); // with the note of the first close
        assert_eq!(names.len(), 4, "{names:?}");
    }
}
