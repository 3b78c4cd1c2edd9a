//! A folder that a process has open is no other's.

use super::child::{say, start, Part};
use crate::folder::Folder;
use pit_host::{Durable, Failure, FileError, Limits, Line, Options, Store, Version};
use std::io::{BufRead, BufReader};
use std::path::Path;
use std::thread;
use std::time::Duration;

fn store() -> Store {
    Store::format(Limits::new(16, 8, 16, 4)).unwrap()
}

/// Makes a folder with a store, and has it open until it is killed.
pub fn hold(part: &Part<'_>) {
    let durable = Durable::create(part.folder, store(), Options::new()).unwrap();
    durable.append_pages(Line(0), &[&[1; 16]]).unwrap();
    say("held");
    thread::sleep(Duration::from_secs(600));
}

/// Finds the folder open, by this process, whether it is to be opened or made.
fn assert_held(folder: &Path, by: u32) {
    let opened = Durable::open(folder, Options::new()).map(drop);
    let made = Durable::create(folder, store(), Options::new()).map(drop);
    for refused in [opened.unwrap_err(), made.unwrap_err()] {
        let words = format!("the folder is open already, by process {by}");
        assert_eq!(refused.to_string(), words);
        assert!(matches!(
            refused,
            Failure::File(FileError::InUse { process: Some(id) }) if id == by
        ));
    }
}

#[test]
fn a_folder_that_another_process_has_open_is_refused_until_that_is_killed() {
    let folder = Folder::new("kills-held");
    let part = Part {
        name: "holds",
        folder: &folder.0,
        seed: 0,
        run: 0,
    };
    let mut child = start(&part, "");
    let (id, mut line) = (child.id(), String::new());
    let mut out = BufReader::new(child.stdout.take().unwrap());
    while line != "@held\n" {
        line.clear();
        assert_ne!(out.read_line(&mut line).unwrap(), 0, "it has ended");
    }
    assert_held(&folder.0, id);
    child.kill().unwrap();
    child.wait().unwrap();

    let (store, _) = Durable::open(&folder.0, Options::new()).unwrap();
    assert_eq!(store.recent(Line(0)), Ok(Version(1)));
    assert_held(&folder.0, std::process::id());
}

#[test]
fn a_folder_is_given_back_with_the_last_handle() {
    let folder = Folder::new("kills-dropped");
    let path = folder.0.join("site");
    let durable = Durable::create(&path, store(), Options::new()).unwrap();
    let other = durable.clone();
    drop(durable);
    assert_held(&path, std::process::id());
    drop(other);
    // a process that another test is just starting has a copy of the lock, for a moment
    let open = || Durable::open(&path, Options::new()).ok();
    let opened = (0..1_000).find_map(|_| {
        thread::sleep(Duration::from_millis(1));
        open()
    });
    assert!(opened.is_some());
}
