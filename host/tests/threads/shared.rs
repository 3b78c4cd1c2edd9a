//! A store shared by threads: writers beside readers, writers that die, readers that panic.

use crate::folder::Folder;
use crate::support::call::{make_on, windows_of, Begin};
use crate::updates::{fills, limits, of_three_versions, ANY_TIME, LIVE};
use pit_host::{
    ByteOffset, Error, FileError, Limits, Minute, PageIndex, Published, Shared, Store, Ticket,
    Version,
};
use std::panic::{catch_unwind, AssertUnwindSafe};
use std::sync::atomic::{AtomicBool, Ordering};
use std::sync::mpsc::{channel, Receiver, Sender};
use std::thread;
use std::time::Duration;

const PAGE: usize = 64;
const BLOB: u64 = 8;

/// A road model of eight pages, all of version 1.
fn model(updates: u64) -> Shared {
    let shared =
        Shared::new(Store::format(Limits::worst(64, BLOB, updates, BLOB).unwrap()).unwrap());
    let ticket = begin(&shared, BLOB, 1);
    let assigned = shared.append(LIVE, ticket).unwrap();
    finish(&shared, ticket, assigned.nodes);
    assert_eq!(
        shared.publish(LIVE, ANY_TIME),
        Ok(Published::Now(Version(1)))
    );
    shared
}

/// A ticket of n pages, all put, filled with one byte.
fn begin(shared: &Shared, n: u64, fill: u8) -> Ticket {
    let ticket = shared.begin(n).unwrap();
    for i in 0..n {
        shared.put(ticket, i, &[fill; PAGE]).unwrap();
    }
    ticket
}

fn finish(shared: &Shared, ticket: Ticket, nodes: u64) {
    for _ in 0..nodes {
        shared.weave(ticket).unwrap();
    }
}

/// One writer: `count` updates of `n` pages, each version's pages filled with a byte of its ticket.
fn write(shared: &Shared, count: u64, n: u64, first: u64) {
    for _ in 0..count {
        let ticket = shared.begin(n).unwrap();
        for i in (0..n).rev() {
            shared.put(ticket, i, &[ticket.0 as u8; PAGE]).unwrap();
        }
        let assigned = shared.write(LIVE, ticket, PageIndex(first)).unwrap();
        finish(shared, ticket, assigned.nodes);
        while shared.publish(LIVE, ANY_TIME).unwrap().version().is_some() {}
    }
}

/// One truck, until told to end, and once more: each published version reads the same however and whenever it is read.
/// Gives the last version that it has seen.
fn ride(shared: &Shared, ended: &AtomicBool) -> Version {
    let mut seen = Version(0);
    loop {
        let last = ended.load(Ordering::Acquire);
        let recent = shared.recent(LIVE).unwrap();
        assert!(recent >= seen, "{recent} after {seen}");
        seen = recent;
        let mut bytes = [0; PAGE * BLOB as usize];
        assert_eq!(shared.size(LIVE, recent), Ok(bytes.len() as u64));
        shared
            .read(LIVE, recent, ByteOffset(0), &mut bytes)
            .unwrap();
        for (page, read) in (0..).map(PageIndex).zip(bytes.chunks(PAGE)) {
            let stamp = shared.stamp(LIVE, recent, page).unwrap();
            shared
                .with_view(LIVE, recent, page, |view| assert_eq!(view, read))
                .unwrap();
            shared
                .with_view(LIVE, stamp, page, |view| assert_eq!(view, read))
                .unwrap();
            assert!(
                read.iter().all(|byte| *byte == read[0]),
                "a page of two updates"
            );
        }
        if last {
            return seen;
        }
    }
}

#[test]
fn writers_and_readers_at_once() {
    let (shared, ended) = (&model(101), &AtomicBool::new(false));
    thread::scope(|threads| {
        let trucks = [(); 3].map(|()| threads.spawn(|| ride(shared, ended)));
        let writers = [(1, 0), (2, 1), (3, 4), (8, 0)]
            .map(|(n, first)| threads.spawn(move || write(shared, 25, n, first)));
        let written = writers.map(|writer| writer.join());
        ended.store(true, Ordering::Release); // also where a writer failed
        assert!(written.iter().all(|end| end.is_ok()));
        let seen = trucks.map(|truck| truck.join().unwrap());
        assert_eq!(seen, [Version(101); 3]);
    });
    assert_eq!(shared.recent(LIVE), Ok(Version(101)));
    assert_eq!(shared.begin(1), Err(Error::RegisterFull));
}

#[test]
fn a_writer_that_dies_leaves_its_ticket_open_and_nobody_stuck() {
    let shared = model(5);
    let drone = shared.clone();
    let died = thread::spawn(move || {
        let ticket = begin(&drone, 2, 50);
        let assigned = drone.write(LIVE, ticket, PageIndex(3)).unwrap();
        finish(&drone, ticket, assigned.nodes - 2);
        panic!("out of battery, two nodes before the end");
    });
    assert!(died.join().is_err());

    // another writer goes on; its version waits for the drone's
    write(&shared, 1, 1, 0);
    assert_eq!(shared.recent(LIVE), Ok(Version(1)));
    assert_eq!(shared.size(LIVE, Version(2)), Err(Error::NotPublished));
    // whoever knows the ticket can end the update
    let ticket = Ticket(2);
    let rest = shared.weave(ticket).unwrap().rest;
    finish(&shared, ticket, rest);
    assert_eq!(
        shared.publish(LIVE, ANY_TIME),
        Ok(Published::Now(Version(2)))
    );
    assert_eq!(
        shared.publish(LIVE, ANY_TIME),
        Ok(Published::Now(Version(3)))
    );
    let pages = fills(&shared.to_store(), LIVE, Version(3)).unwrap();
    assert_eq!(pages, [3, 1, 1, 50, 50, 1, 1, 1]);
}

#[test]
fn a_writer_that_dies_before_its_version_holds_up_nothing() {
    let shared = model(3);
    let drone = shared.clone();
    let died = thread::spawn(move || {
        begin(&drone, 2, 50);
        panic!("out of battery");
    });
    assert!(died.join().is_err());
    write(&shared, 1, 1, 0);
    assert_eq!(shared.recent(LIVE), Ok(Version(2)));
}

#[test]
fn a_panic_while_looking_harms_nobody_else() {
    let shared = model(2);
    let looking = AssertUnwindSafe(|| {
        shared.with_view(LIVE, Version(1), PageIndex(0), |_| panic!("bad screen"))
    });
    assert!(catch_unwind(looking).is_err());
    assert_eq!(shared.recent(LIVE), Ok(Version(1)));
    write(&shared, 1, 1, 0);
    assert_eq!(shared.recent(LIVE), Ok(Version(2)));
}

#[test]
fn readers_look_beside_each_other() {
    let shared = model(1);
    let (to_first, from_second) = channel();
    let (to_second, from_first) = channel();
    // each goes on only when the other is looking too
    let look = |mine: Sender<()>, other: Receiver<()>| {
        let shared = shared.clone();
        thread::spawn(move || {
            shared.with_view(LIVE, Version(1), PageIndex(0), |_| {
                mine.send(()).unwrap();
                other.recv_timeout(Duration::from_secs(60)).is_ok()
            })
        })
    };
    let both = [look(to_first, from_first), look(to_second, from_second)];
    assert_eq!(
        both.map(|truck| truck.join().unwrap()),
        [Ok(true), Ok(true)]
    );
}

#[test]
fn handles_are_of_one_store() {
    fn crosses_threads<T: Send + Sync + Clone>(_: &T) {}
    let shared = Shared::new(Store::format(limits(4, 8, 2)).unwrap());
    crosses_threads(&shared);
    let other = shared.clone();
    assert_eq!(
        (shared.begin(1), other.begin(1)),
        (Ok(Ticket(1)), Ok(Ticket(2)))
    );
    assert_eq!(shared.begin(1), Err(Error::RegisterFull));
}

/// A handle's windows are every handle's: those that the blaster sets hold the crew's version until they are gone.
#[test]
fn windows_set_by_one_thread_hold_anothers_publish() {
    let shared = model(2);
    let (blaster, crew) = (shared.clone(), shared.clone());
    let (set, is_set) = channel();
    let (found, is_held) = channel();
    let working = thread::spawn(move || {
        let ticket = begin(&crew, 1, 50);
        let assigned = crew.write(LIVE, ticket, PageIndex(0)).unwrap();
        finish(&crew, ticket, assigned.nodes);
        is_set.recv().unwrap();
        found.send(crew.publish(LIVE, Minute(610))).unwrap();
        is_set.recv().unwrap();
        crew.publish(LIVE, Minute(610))
    });
    blaster.windows_are("600,660\n");
    set.send(()).unwrap();
    assert_eq!(is_held.recv().unwrap(), Ok(Published::Held));
    assert_eq!(shared.recent(LIVE), Ok(Version(1)));
    let refused = make_on(&blaster, &windows_of("600,600\n")).unwrap_err();
    assert_eq!(refused.error(), Some(Error::WrongWindow));
    assert_eq!(shared.windows().to_string(), "600,660\n");
    blaster.windows_are("");
    set.send(()).unwrap();
    let published = Ok(Published::Now(Version(2)));
    assert_eq!(working.join().unwrap(), published);
}

// Files.

#[test]
fn a_save_beside_writers_is_the_store_of_one_moment() {
    let shared = &model(81);
    let folder = Folder::new("moment");
    let path = folder.0.join("store");
    let mut seen = Version(0);
    thread::scope(|threads| {
        let writers =
            [(2, 1), (8, 0)].map(|(n, first)| threads.spawn(move || write(shared, 40, n, first)));
        let mut ended = false;
        while !ended {
            ended = writers.iter().all(|writer| writer.is_finished());
            let version = shared.save(&path).unwrap();
            let (saved, live) = (Store::load(&path).unwrap(), shared.to_store());
            assert_eq!(saved.recent(LIVE), Ok(version));
            assert!(version >= seen);
            seen = version;
            for v in (0..=seen.0).map(Version) {
                assert_eq!(fills(&saved, LIVE, v), fills(&live, LIVE, v), "version {v}");
            }
        }
    });
    assert_eq!(seen, Version(81));
}

/// Two crews publish and save at once. Each finds in the file, after its own save, no less than that save held.
#[test]
fn a_finished_save_is_not_undone() {
    let shared = &model(81);
    let folder = Folder::new("savers");
    let path = &folder.0.join("store");
    let publish_and_save = || {
        write(shared, 1, 1, 0);
        let before = shared.recent(LIVE).unwrap();
        let saved = shared.save(path).unwrap();
        let held = Store::load(path).unwrap().recent(LIVE).unwrap();
        assert!(before <= saved, "published {before}, saved {saved}");
        assert!(saved <= held, "saved {saved}, and the file has {held}");
    };
    thread::scope(|threads| {
        for _ in 0..2 {
            threads.spawn(|| (0..40).for_each(|_| publish_and_save()));
        }
    });
}

#[test]
fn a_reload_is_whole_or_not_at_all() {
    let folder = Folder::new("reload");
    let (good, bad) = (folder.0.join("good"), folder.0.join("bad"));
    let saved = of_three_versions();
    saved.save(&good).unwrap();
    let mut bytes = std::fs::read(&good).unwrap();
    bytes[200] ^= 1;
    std::fs::write(&bad, bytes).unwrap();

    let shared = model(3);
    let ticket = begin(&shared, 1, 9);
    let running = shared.to_store();
    assert!(matches!(shared.reload(&bad), Err(FileError::Checksum)));
    assert!(matches!(
        shared.reload(folder.0.join("none")),
        Err(FileError::Io { .. })
    ));
    assert!(shared.to_store() == running);
    assert!(shared.write(LIVE, ticket, PageIndex(0)).is_ok());

    let other = shared.clone();
    shared.reload(&good).unwrap();
    assert!(other.to_store() == saved);
}
