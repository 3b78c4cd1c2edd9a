//! The old file or the new one stands there whole, whatever happens while a store is saved.

use super::scene::{in_work, saved, Folder};
use crate::updates::{fills, limits, of_three_versions, ANY_TIME, LIVE};
use pit_host::{
    Error, FileError, PageIndex, Published, Record, State, Storage, Store, Ticket, Version, Window,
};
use std::fs;
use std::path::Path;
use std::process::{Command, Stdio};
use std::thread;
use std::time::{Duration, Instant};

#[test]
fn what_would_not_load_is_not_saved() {
    let folder = Folder::new("unsaved");
    let kept = saved(&folder, &in_work());
    let save = |change: fn(&mut State)| {
        let (mut state, windows, areas) = in_work().into_parts();
        change(&mut state);
        Store::resume(state, windows, areas)
            .save(folder.file())
            .unwrap_err()
    };
    assert!(matches!(
        save(|s| s.size = 24),
        FileError::Limits(Error::PageSize)
    ));
    assert!(matches!(
        save(|s| s.updates = 4_097),
        FileError::Limits(Error::Capacity)
    ));
    assert!(matches!(save(|s| s.pages = 7), FileError::AreaLengths));
    let counters: [fn(&mut State); 10] = [
        |s| s.lines[0] += 3 << 32, // the last version published
        |s| s.begun = 0,
        |s| s.begun = 17,
        |s| s.lines[15] = 1 << 48,
        |s| s.tickets += 1,
        |s| s.tickets = u64::MAX,
        |s| s.taken -= 1,
        |s| s.taken = u64::MAX,
        |s| s.places += 1,
        |s| s.places = u64::MAX,
    ];
    for change in counters {
        assert!(matches!(save(change), FileError::Counters));
    }
    let records: [fn(&mut Record); 3] = [|r| r.past += 1, |r| r.number += 1, |r| r.put = 1];
    for change in records {
        let (state, windows, mut areas) = in_work().into_parts();
        change(&mut areas.parts_mut().register[1]);
        let damaged = Store::resume(state, windows, areas);
        let error = damaged.save(folder.file()).unwrap_err();
        assert!(matches!(error, FileError::Counters));
    }
    let (state, mut windows, areas) = in_work().into_parts();
    windows.places[1] = Window { from: 1, to: 2 };
    let damaged = Store::resume(state, windows, areas);
    assert!(matches!(
        damaged.save(folder.file()),
        Err(FileError::Windows)
    ));
    assert_eq!(fs::read(folder.file()).unwrap(), kept);
    assert_eq!(folder.names(), ["store"]);
}

#[test]
fn a_save_that_fails_leaves_nothing_behind() {
    let folder = Folder::new("fails");
    fs::create_dir_all(folder.file().join("full")).unwrap();
    let store = in_work();
    assert!(matches!(
        store.save(folder.file()),
        Err(FileError::Io { .. })
    )); // a folder stands there
    assert!(matches!(
        store.save(folder.0.join("none/store")),
        Err(FileError::Io { .. })
    ));
    assert!(matches!(store.save("/"), Err(FileError::Io { .. })));
    assert!(matches!(store.save(""), Err(FileError::Io { .. })));
    assert_eq!(folder.names(), ["store"]);
}

fn saved_well(store: &Store, file: &Path) {
    store.save(file).unwrap();
}

#[test]
fn saves_at_once_to_one_file_leave_one_of_them() {
    let folder = Folder::new("at-once");
    let stores = [
        in_work(),
        of_three_versions(),
        Store::format(limits(1, 1, 1)).unwrap(),
    ];
    let file = folder.file();
    thread::scope(|threads| {
        for store in &stores {
            threads.spawn(|| (0..20).for_each(|_| saved_well(store, &file)));
        }
    });
    let last = Store::load(&file).unwrap();
    assert!(stores.contains(&last));
    assert_eq!(folder.names(), ["store"]);
}

// Other processes. Their parts are in the test `as_a_child`.

/// This program again, to run `as_a_child` in a part.
fn child(part: &str, file: &Path) -> Command {
    let limit = match part {
        "has no room" => "trap '' XFSZ; ulimit -f 1; ",
        "is killed for room" => "ulimit -c 0; ulimit -f 1; ",
        _ => "",
    };
    let mut command = Command::new("sh");
    command.args(["-c", &format!("{limit}exec \"$@\""), "sh"]);
    command.arg(std::env::current_exe().unwrap());
    command.args(["--ignored", "--exact", "files::whole::as_a_child"]);
    command.env("PIT_CHILD", part).env("PIT_CHILD_FILE", file);
    command.stdin(Stdio::null());
    command.stdout(Stdio::null()).stderr(Stdio::null());
    command
}

#[test]
#[ignore = "a part that other tests start"]
fn as_a_child() {
    let part = std::env::var("PIT_CHILD").unwrap_or_default();
    let file = std::env::var_os("PIT_CHILD_FILE").unwrap_or_default();
    let mut store = of_three_versions();
    let ticket = store.begin(1).unwrap();
    store.put(ticket, 0, &[8; 16]).unwrap();
    match part.as_str() {
        "has no room" => assert!(matches!(store.save(&file), Err(FileError::Io { .. }))),
        "dies" => {
            store.save(&file).unwrap();
            store.append(LIVE, ticket).unwrap();
            std::process::abort();
        }
        "saves" => loop {
            store.save(&file).unwrap(); // until it is killed
        },
        "saves often" => (0..40).for_each(|_| saved_well(&store, file.as_ref())),
        "is killed for room" => drop(store.save(&file)), // by the system, while it writes
        _ => (),                                         // started by hand, it has no part
    }
}

#[test]
fn a_disk_without_room_keeps_the_old_file() {
    let folder = Folder::new("no-room");
    let old = Store::format(limits(1, 1, 1)).unwrap();
    old.save(folder.file()).unwrap();
    let end = child("has no room", &folder.file()).status().unwrap();
    assert!(
        end.success(),
        "the save was refused, and by an error: {end}"
    );
    assert!(Store::load(folder.file()).unwrap() == old);
    assert_eq!(folder.names(), ["store"]);
}

#[test]
fn a_save_clears_what_a_killed_one_left() {
    let folder = Folder::new("cleared");
    for left in 0..3 {
        let other = folder.0.join(format!("other-{left}"));
        let end = child("is killed for room", &other).status().unwrap();
        assert!(!end.success());
        assert_eq!(folder.names().len(), 1, "what the killed save left, alone");
    }
    in_work().save(folder.file()).unwrap();
    assert_eq!(folder.names(), ["store"]);
}

#[test]
fn a_save_clears_nothing_that_another_process_holds() {
    let folder = Folder::new("held");
    let mut other = child("saves often", &folder.0.join("other"))
        .spawn()
        .unwrap();
    let end = loop {
        in_work().save(folder.file()).unwrap();
        if let Some(end) = other.try_wait().unwrap() {
            break end;
        }
    };
    assert!(end.success(), "a save of the other process failed: {end}");
    assert_eq!(folder.names(), ["other", "store"]);
}

#[test]
fn a_restart_loses_nothing_that_was_saved() {
    let folder = Folder::new("restart");
    let mut dies = child("dies", Path::new("store")); // a bare name, in the folder it runs in
    assert!(!dies.current_dir(&folder.0).status().unwrap().success());
    let mut store = Store::load(folder.file()).unwrap();
    assert_eq!(store.recent(LIVE), Ok(Version(3)));
    let pages = [&[][..], &[1, 2, 3, 4], &[1, 5, 6, 4], &[1, 5, 6, 4, 7]];
    for (version, pages) in (0..).map(Version).zip(pages) {
        assert_eq!(fills(&store, LIVE, version).unwrap(), pages);
    }
    // the ticket is still open, with its page put
    for _ in 0..store.write(LIVE, Ticket(4), PageIndex(0)).unwrap().nodes {
        store.weave(Ticket(4)).unwrap();
    }
    assert_eq!(
        store.publish(LIVE, ANY_TIME),
        Ok(Published::Now(Version(4)))
    );
    assert_eq!(fills(&store, LIVE, Version(4)), Ok(vec![8, 5, 6, 4, 7]));
}

#[test]
fn a_process_killed_while_saving_leaves_a_whole_file() {
    let folder = Folder::new("killed");
    for round in 0..8 {
        of_three_versions().save(folder.file()).unwrap();
        let mut saving = child("saves", &folder.file()).spawn().unwrap();
        // it saves on and on from its first save, which has a fourth ticket
        let started = Instant::now();
        while Store::load(folder.file()).unwrap().state().tickets == 3 {
            assert!(started.elapsed() < Duration::from_secs(60));
        }
        thread::sleep(Duration::from_micros(300 * round));
        saving.kill().unwrap();
        saving.wait().unwrap();
        let store = Store::load(folder.file()).unwrap();
        assert_eq!(
            (store.state().tickets, store.recent(LIVE)),
            (4, Ok(Version(3)))
        );
    }
    of_three_versions().save(folder.file()).unwrap();
    assert_eq!(folder.names(), ["store"]);
}
