use super::run::{copy, names, open, Run, Scratch};
use crate::calls::counters::Version;
use crate::disk::file::{FileError, SavePlace};
use crate::disk::folder::{Folder, Options};
use crate::disk::journal::tests::random::first_seed;
use crate::disk::journal::tests::scene::empty_store;
use crate::disk::journal::SyncAt;
use std::fs::{self, File, OpenOptions};
use std::time::Duration;

#[test]
fn what_was_kept_is_there_however_it_is_synced() {
    let scratch = Scratch::new("kept");
    let every = SyncAt::Every(Duration::from_secs(3_600));
    for (k, sync) in [SyncAt::EachCall, SyncAt::EachPublish, every]
        .into_iter()
        .enumerate()
    {
        let path = scratch.file(&k.to_string());
        let mut run = Run::create(&path, first_seed("kept"));
        drop(run.folder);
        let (_, _, folder, _) = Folder::open(&path, Options::new().sync(sync)).unwrap();
        run.folder = folder;
        run.calls(100);
        // as after a kill: nothing is closed
        let killed = scratch.file(&format!("killed-{k}"));
        copy(&path, &killed);
        let (store, opened) = open(&killed).unwrap();
        assert!(store == run.store);
        assert_eq!((opened.generation, opened.entries), (1, 100));
        assert_eq!(opened.to_string(), "store-1 and 100 entries after it");
    }
}

#[test]
fn a_folder_is_open_once() {
    let scratch = Scratch::new("once");
    let path = scratch.file("made/on/the/way");
    let run = Run::create(&path, 1);
    let refused = open(&path).unwrap_err();
    let own = std::process::id();
    assert!(matches!(refused, FileError::InUse { process: Some(id) } if id == own));
    let words = format!("the folder is open already, by process {own}");
    assert_eq!(refused.to_string(), words);
    let refused = Folder::create(&path, &run.store, Options::new()).unwrap_err();
    assert!(matches!(refused, FileError::InUse { .. }));
    fs::write(path.join("lock"), "").unwrap();
    // where the process is not written, the system may tell
    let refused = open(&path).unwrap_err().to_string();
    assert!(refused == words || refused == "the folder is open already");
    drop(run);
    open(&path).unwrap();
}

#[test]
fn no_store_is_made_where_one_is() {
    let scratch = Scratch::new("there");
    let path = scratch.file("folder");
    drop(Run::create(&path, 1));
    let create = || Folder::create(&path, &empty_store(), Options::new());
    assert!(matches!(create(), Err(FileError::StoreThere)));
    // a journal with entries is none to be thrown away, though its store is gone
    let mut run = Run::create(&scratch.file("other"), 1);
    run.calls(1);
    drop(run);
    let other = scratch.file("other");
    fs::remove_file(other.join("store-1")).unwrap();
    let refused = Folder::create(&other, &empty_store(), Options::new()).unwrap_err();
    assert!(matches!(refused, FileError::StoreThere));
    assert!(matches!(open(&other), Err(FileError::NoStore)));
}

#[test]
fn a_folder_whose_making_was_broken_off_is_made_anew() {
    let scratch = Scratch::new("broken-off");
    let path = scratch.file("folder");
    let run = Run::create(&path, 1);
    let header = fs::read(path.join("journal-1")).unwrap();
    drop(run);
    for length in [0, 1, 63, 64] {
        fs::remove_file(path.join("store-1")).unwrap();
        fs::write(path.join("journal-1"), &header[..length]).unwrap();
        assert!(matches!(open(&path), Err(FileError::NoStore)));
        drop(Run::create(&path, 1));
        open(&path).unwrap();
    }
}

/// Making a folder fails at each of its steps, and is then made again. Before, a store was there that could be neither opened nor made.
#[test]
fn a_folder_whose_making_failed_is_made_again() {
    let scratch = Scratch::new("failed-making");
    let path = &scratch.file("folder");
    let store = empty_store();
    type Save<'a> = &'a dyn Fn(&SavePlace) -> Result<Version, FileError>;
    let saves: [Save<'_>; 3] = [
        &|_| Err(FileError::NoStore),
        // the last sync of all: the store is in its place already
        &|place| store.save_at(place).and(Err(FileError::NoStore)),
        // what stands there is not ours
        &|place| {
            fs::create_dir(&place.path).unwrap();
            store.save_at(place)
        },
    ];
    for (k, save) in saves.into_iter().enumerate() {
        let refused = Folder::create_by(path, Options::new(), save).unwrap_err();
        let in_the_way = fs::remove_dir(path.join("store-1"));
        assert_eq!(in_the_way.is_ok(), k == 2, "{refused}");
        assert!(matches!(open(path), Err(FileError::NoStore)));
        drop(Folder::create(path, &store, Options::new()).unwrap());
        assert!(open(path).unwrap().0 == store);
        fs::remove_dir_all(path).unwrap();
    }
    // and where it is given up after that
    let folder = Folder::create(path, &store, Options::new()).unwrap();
    folder.unmake();
    drop(folder);
    assert_eq!(names(path), ["lock"]);
    drop(Folder::create(path, &store, Options::new()).unwrap());
}

#[test]
fn where_there_is_no_store_nothing_is_left() {
    let scratch = Scratch::new("none");
    assert!(matches!(open(scratch.path()), Err(FileError::NoStore)));
    assert_eq!(names(scratch.path()), [""; 0]);
    let refused = open(&scratch.file("nowhere"));
    assert!(matches!(refused, Err(FileError::Folder { .. })));
    File::create(scratch.file("file")).unwrap();
    let refused = Folder::create(scratch.file("file"), &empty_store(), Options::new());
    assert!(matches!(refused, Err(FileError::Folder { .. })));
}

#[test]
fn left_overs_are_cleared_and_other_files_are_not() {
    let scratch = Scratch::new("left-overs");
    let path = scratch.file("folder");
    let mut run = Run::create(&path, 1);
    run.checkpoint();
    run.calls(10);
    run.checkpoint();
    run.calls(10);
    let kept = run.store.clone();
    drop(run);
    for name in [
        "store-1",
        "journal-1",
        "store-2",
        "journal-2",
        ".pit-1-1.new",
    ] {
        fs::write(path.join(name), "left over").unwrap();
    }
    let others = ["journal-03", "journal-x", "notes", "store-", "store-3.bak"];
    for name in others {
        fs::write(path.join(name), "another's").unwrap();
    }
    let (store, _) = open(&path).unwrap();
    assert!(store == kept);
    let mut all = [&others[..], &["journal-3", "store-3", "lock"]].concat();
    all.sort_unstable();
    assert_eq!(names(&path), all);
}

#[test]
fn a_torn_entry_is_cut_off_and_the_journal_goes_on_there() {
    let scratch = Scratch::new("torn");
    let path = scratch.file("folder");
    let mut run = Run::create(&path, first_seed("torn"));
    run.calls(20);
    let before = run.store.clone();
    drop(run.folder);
    let journal = path.join("journal-1");
    let length = fs::metadata(&journal).unwrap().len();

    let (_, _, folder, _) = Folder::open(&path, Options::new()).unwrap();
    run.folder = folder;
    run.calls(1);
    drop(run);
    // within the entry after what was there, as where it was not closed
    fs::remove_file(path.join("closed")).unwrap();
    let file = OpenOptions::new().write(true).open(&journal).unwrap();
    file.set_len(length + 40).unwrap();
    let (store, _, folder, opened) = Folder::open(&path, Options::new()).unwrap();
    assert!(store == before);
    let cut = opened.cut.clone().unwrap();
    assert_eq!((cut.generation, cut.after, cut.bytes), (1, 20, 40));
    assert!(cut.torn);
    let words = format!(
        "store-1 and 20 entries after it; 40 bytes were cut off journal-1 from byte {length} on: the entry after entry 20 is torn"
    );
    assert_eq!(opened.to_string(), words);
    drop(folder);
    let (store, opened) = open(&path).unwrap();
    assert!(store == before && opened.cut.is_none());
}
