//! A store in a folder: what its calls wait for, and what is done where the folder is not as it was.

use crate::folder::Folder;
use crate::support::call::Begin;
use pit_host::{
    Durable, Failure, FileError, Limits, Line, Minute, Options, PageIndex, Shared, Store, SyncAt,
    Ticket, Version,
};
use std::fs;
use std::thread;
use std::time::{Duration, Instant};

const LIVE: Line = Line(0);

fn store() -> Store {
    Store::format(Limits::new(16, 400, 4_000, 200)).unwrap()
}

/// A new folder with a store in which nothing is done by itself.
fn durable(place: &Folder, name: &str, sync: SyncAt) -> Durable {
    let options = Options::new().sync(sync).checkpoint_at(0);
    let durable = Durable::create(place.path(name), store(), options).unwrap();
    durable.set_clock(|| Minute(0));
    durable
}

fn reopened(place: &Folder, name: &str) -> Durable {
    let (durable, opened) = Durable::open(place.path(name), Options::new()).unwrap();
    assert!(opened.cut.is_none(), "{opened}");
    durable.set_clock(|| Minute(0));
    durable
}

/// A page of a ticket's is put, and it gets a version.
fn assign(durable: &Durable) -> (Ticket, u64) {
    let ticket = durable.begin(1).unwrap();
    durable.put(ticket, 0, &[1; 16]).unwrap();
    let assigned = durable.append(LIVE, ticket).unwrap();
    (ticket, assigned.nodes)
}

fn all_synced(durable: &Durable) -> bool {
    let (written, synced) = durable.entries();
    written == synced
}

// What calls wait for.

#[test]
fn a_saved_file_has_nothing_that_the_folder_can_lose() {
    let place = Folder::new("durable-save");
    for sync in [SyncAt::EachPublish, SyncAt::Every(Duration::from_secs(60))] {
        let durable = durable(&place, &format!("{sync:?}"), sync);
        assign(&durable);
        assert!(!all_synced(&durable));
        durable.save(place.path("file")).unwrap();
        assert!(all_synced(&durable));
        let saved = Shared::load(place.path("file")).unwrap();
        assert!(saved.to_store() == durable.to_store());
    }
}

/// Also where somebody else has woven the last node, and nothing is published.
#[test]
fn what_is_finished_is_kept() {
    let place = Folder::new("durable-finish");
    let durable = durable(&place, "folder", SyncAt::EachPublish);
    durable.windows_are("0,10\n");
    let (ticket, nodes) = assign(&durable);
    for _ in 0..nodes {
        durable.weave(ticket).unwrap();
    }
    assert!(!all_synced(&durable));
    assert_eq!(durable.finish(ticket).unwrap(), Version(1));
    assert!(all_synced(&durable));
    assert_eq!(durable.recent(LIVE).unwrap(), Version(0)); // it is held
}

/// Two threads finish one update, of which one alone publishes it: when either has returned, it can be read.
#[test]
fn what_is_finished_can_be_read() {
    let place = Folder::new("durable-both");
    let durable = &durable(&place, "folder", SyncAt::EachPublish);
    for _ in 0..150 {
        let (ticket, _) = assign(durable);
        let finish = || {
            let version = durable.finish(ticket).unwrap();
            assert!(durable.snapshot(LIVE, version).is_ok(), "{version}");
            let last = durable.publish_due(LIVE).unwrap();
            assert!(version <= last && durable.size(LIVE, last).is_ok());
        };
        thread::scope(|threads| {
            threads.spawn(finish);
            finish();
        });
    }
}

/// A process that ends between the last WEAVE and PUBLISH leaves no ticket in work, and a version that is due.
#[test]
fn what_is_due_is_published_after_opening() {
    let place = Folder::new("durable-due");
    let made = durable(&place, "folder", SyncAt::EachPublish);
    for _ in 0..2 {
        let (ticket, nodes) = assign(&made);
        for _ in 0..nodes {
            made.weave(ticket).unwrap();
        }
    }
    drop(made);
    let durable = reopened(&place, "folder");
    assert_eq!(durable.open_tickets(), []);
    assert_eq!(durable.recent(LIVE).unwrap(), Version(0));
    assert_eq!(durable.publish_due(LIVE).unwrap(), Version(2));
    assert_eq!(durable.publish_due(LIVE).unwrap(), Version(2));
    assert_eq!(durable.recent(LIVE).unwrap(), Version(2));
    assert!(durable.publish_due(Line(1)).unwrap_err().error().is_some());
}

/// Also where checkpoints end journals meanwhile.
#[test]
fn all_is_synced_some_time_after_it_returned() {
    let place = Folder::new("durable-every");
    let durable = durable(&place, "folder", SyncAt::Every(Duration::from_millis(1)));
    for at in 0..20 {
        assign(&durable);
        if at % 4 == 0 {
            durable.checkpoint().unwrap();
        }
    }
    let begin = Instant::now();
    while !all_synced(&durable) {
        assert!(begin.elapsed() < Duration::from_secs(20));
        thread::sleep(Duration::from_millis(1));
    }
}

// A folder that is not as it was.

#[test]
fn a_folder_goes_by_its_own_path() {
    let place = Folder::new("durable-path");
    let durable = durable(&place, "folder", SyncAt::EachPublish);
    fs::create_dir(place.path("other")).unwrap();
    let folder = durable.folder().to_path_buf();
    assert!(folder.is_absolute() && folder.ends_with("folder"));
    drop(durable);
    let around = place.path("other").join("..").join("folder");
    let (durable, _) = Durable::open(around, Options::new()).unwrap();
    assert_eq!(durable.folder(), folder);
}

/// Another folder in the place of one that was moved is left alone; the journal goes on where it was moved to.
#[test]
fn nothing_is_saved_where_another_folder_stands() {
    let place = Folder::new("durable-moved");
    let moved = durable(&place, "folder", SyncAt::EachPublish);
    moved.append_pages(LIVE, &[&[1; 16]]).unwrap();
    fs::rename(place.path("folder"), place.path("elsewhere")).unwrap();
    let other = durable(&place, "folder", SyncAt::EachPublish);
    other.append_pages(LIVE, &[&[2; 16], &[3; 16]]).unwrap();

    let is_moved = |failure| matches!(failure, Failure::File(FileError::FolderMoved));
    assert!(is_moved(moved.checkpoint().unwrap_err()));
    assert!(is_moved(moved.rebuild(moved.limits(), &[]).unwrap_err()));
    moved.append_pages(LIVE, &[&[4; 16]]).unwrap();
    let (was, others) = (moved.to_store(), other.to_store());
    drop((moved, other));
    assert!(reopened(&place, "elsewhere").to_store() == was);
    let other = reopened(&place, "folder");
    assert!(other.to_store() == others);
    other.checkpoint().unwrap();
}

/// What cannot be removed, here since it is a folder, keeps nothing else from being so.
#[test]
fn what_is_needed_no_more_is_removed_beside_what_cannot_be() {
    let place = Folder::new("durable-clear");
    let durable = durable(&place, "folder", SyncAt::EachPublish);
    fs::create_dir(place.path("folder").join("store-0")).unwrap();
    for _ in 0..3 {
        durable.append_pages(LIVE, &[&[1; 16]]).unwrap();
        durable.checkpoint().unwrap();
    }
    let names = Folder(place.path("folder"));
    let found = names.names();
    std::mem::forget(names); // the place removes it
    assert_eq!(found, ["journal-4", "lock", "store-0", "store-4"]);
}

/// A checkpoint that fails by itself is told until one succeeds.
#[test]
fn a_failed_checkpoint_is_told_until_another_succeeds() {
    let place = Folder::new("durable-failed");
    let options = Options::new().checkpoint_at(400);
    let durable = Durable::create(place.path("folder"), store(), options).unwrap();
    durable.set_clock(|| Minute(0));
    // of as many as there may be
    let in_the_way: Vec<_> = (2..250).map(|g| format!("folder/store-{g}")).collect();
    for path in &in_the_way {
        fs::create_dir(place.path(path)).unwrap();
    }
    let begin = Instant::now();
    while durable.checkpoint_failure().is_none() {
        assert!(begin.elapsed() < Duration::from_secs(20));
        let done = durable.update(LIVE, PageIndex(0), &[&[1; 16]]);
        assert!(done.is_ok() || done.unwrap_err().error().is_some());
        thread::sleep(Duration::from_millis(1));
    }
    for path in &in_the_way {
        fs::remove_dir(place.path(path)).unwrap();
    }
    durable.checkpoint().unwrap();
    assert_eq!(durable.checkpoint_failure(), None);
}
