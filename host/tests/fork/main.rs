//! A process that is forked off one that has a folder open: it has none of that one's threads, and no right to its files.

#[path = "../support/mod.rs"]
mod support;

use pit_host::{
    Durable, Failure, FileError, Limits, Line, Minute, Options, PageIndex, Store, SyncAt, Version,
};
use std::panic::{catch_unwind, AssertUnwindSafe};
use std::time::Duration;
use support::folder::Folder;

extern "C" {
    fn fork() -> i32;
    fn waitpid(process: i32, status: &mut i32, options: i32) -> i32;
    fn alarm(seconds: u32) -> u32;
    fn _exit(status: i32) -> !;
}

const LIVE: Line = Line(0);

/// Does this in a process that is forked off, and gives its status: 0 where it said that all was right, and what ended it where it took
/// more than a few seconds.
fn in_a_fork(act: impl FnOnce() -> bool) -> i32 {
    // SAFETY: the child uses what this thread has, the allocator, which the C library makes ready for it, and ends without any clean-up.
    match unsafe { fork() } {
        0 => unsafe {
            alarm(5);
            let right = catch_unwind(AssertUnwindSafe(act)).unwrap_or(false);
            _exit(i32::from(!right))
        },
        child => {
            let mut status = -1;
            // SAFETY: it writes one number.
            let ended = unsafe { waitpid(child, &mut status, 0) };
            assert_eq!(ended, child);
            status
        }
    }
}

fn is_of_another<T>(result: Result<T, Failure>) -> bool {
    matches!(result, Err(Failure::File(FileError::OtherProcess)))
}

/// With both threads that a folder may have: one that makes checkpoints, and one that syncs.
fn create(place: &Folder, sync: SyncAt) -> Durable {
    let store = Store::format(Limits::new(16, 40, 160, 20)).unwrap();
    let options = Options::new().sync(sync);
    let durable = Durable::create(place.path("folder"), store, options).unwrap();
    durable.set_clock(|| Minute(0));
    durable.append_pages(LIVE, &[&[1; 16]]).unwrap();
    durable
}

#[test]
fn a_forked_process_leaves_the_folder_alone() {
    for sync in [SyncAt::EachPublish, SyncAt::Every(Duration::from_secs(60))] {
        let place = Folder::new("fork");
        let durable = create(&place, sync);
        let ticket = durable.begin(1).unwrap();
        let inside = Folder(place.path("folder"));
        let (files, mut handle) = (inside.files(), Some(durable.clone()));

        let status = in_a_fork(|| {
            let handles = (handle.take(), durable);
            drop(handles);
            true
        });
        assert_eq!(status, 0, "dropped");
        let durable = handle.take().unwrap();
        let status = in_a_fork(|| {
            let refused = [
                durable.begin(1).map(drop),
                durable.put(ticket, 0, &[2; 16]),
                durable.append_pages(LIVE, &[&[2; 16]]).map(drop),
                durable.checkpoint().map(drop),
                durable.rebuild(durable.limits(), &[]).map(drop),
                durable.sync(),
                durable.reopen().map(drop),
                durable.wait_published(LIVE, Version(2)),
                durable.close(),
            ];
            let is_read = durable.with_view(LIVE, Version(1), PageIndex(0), |page| page == [1; 16]);
            refused.into_iter().all(is_of_another) && is_read == Ok(true)
        });
        assert_eq!(status, 0, "refused");

        assert!(inside.files() == files);
        std::mem::forget(inside); // the place removes it
        let other = Durable::open(place.path("folder"), Options::new());
        assert!(matches!(other, Err(Failure::File(FileError::InUse { .. }))));
        durable.put(ticket, 0, &[2; 16]).unwrap();
        assert_eq!(durable.append_pages(LIVE, &[&[2; 16]]).unwrap(), Version(2));
        let last = durable.to_store();
        drop(durable);
        let (found, _) = Durable::open(place.path("folder"), Options::new()).unwrap();
        assert!(found.to_store() == last);
    }
}
