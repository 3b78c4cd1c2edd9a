//! Where a saved file lands: in the old one's place, with its mode, at the end of links; and what beside it is cleared.

use super::scene::{in_work, Folder};
use crate::updates::{of_three_versions, LIVE};
use pit_host::{FileError, Store, Version};
use std::fs::{self, Permissions};
use std::os::unix::fs::{symlink, FileTypeExt, PermissionsExt};
use std::path::Path;
use std::process::Command;

fn mode(path: impl AsRef<Path>) -> u32 {
    fs::metadata(path).unwrap().permissions().mode() & 0o7777
}

#[test]
fn a_save_gives_the_version_that_the_file_holds() {
    let folder = Folder::new("version");
    for (store, version) in [(in_work(), 1), (of_three_versions(), 3)] {
        assert_eq!(store.save(folder.file()).unwrap(), Version(version));
        let loaded = Store::load(folder.file()).unwrap();
        assert_eq!(loaded.recent(LIVE), Ok(Version(version)));
    }
}

#[test]
fn the_old_files_mode_is_kept() {
    let folder = Folder::new("mode");
    let plain = folder.0.join("plain");
    fs::write(&plain, "").unwrap();
    in_work().save(folder.file()).unwrap();
    assert_eq!(mode(folder.file()), mode(plain)); // a new file's is any new file's
    for kept in [0o600, 0o640, 0o444, 0o666, 0o755] {
        fs::set_permissions(folder.file(), Permissions::from_mode(kept)).unwrap();
        of_three_versions().save(folder.file()).unwrap();
        assert_eq!(mode(folder.file()), kept, "{kept:o}");
        assert!(Store::load(folder.file()).unwrap() == of_three_versions());
    }
}

#[test]
fn a_link_stays_and_the_file_that_it_leads_to_is_replaced() {
    let (links, files) = (Folder::new("links"), Folder::new("linked"));
    let file = files.file();
    let at = |name| links.0.join(name);
    symlink(&file, at("whole")).unwrap();
    symlink("whole", at("near")).unwrap();
    let back = Path::new("..").join(files.0.file_name().unwrap());
    symlink(back.join("store"), at("back")).unwrap();
    // at first the links lead to nothing
    for name in ["near", "whole", "back"] {
        let _ = fs::remove_file(&file);
        for store in [in_work(), of_three_versions()] {
            store.save(at(name)).unwrap();
            assert!(Store::load(&file).unwrap() == store, "{name}");
            assert!(fs::symlink_metadata(&file).unwrap().is_file());
        }
    }
    assert!(links
        .names()
        .iter()
        .all(|name| fs::read_link(at(name)).is_ok()));
    assert_eq!(links.names(), ["back", "near", "whole"]);
    assert_eq!(files.names(), ["store"]);
}

#[test]
fn links_in_a_ring_are_refused() {
    let folder = Folder::new("ring");
    symlink("store", folder.0.join("other")).unwrap();
    symlink("other", folder.file()).unwrap();
    assert!(matches!(
        in_work().save(folder.file()),
        Err(FileError::Io { .. })
    ));
    assert_eq!(folder.names(), ["other", "store"]);
}

/// Makes a pipe with a name, which stands for anything that is no file.
fn pipe(path: &Path) {
    assert!(Command::new("mkfifo").arg(path).status().unwrap().success());
}

#[test]
fn what_is_no_file_is_not_replaced() {
    let folder = Folder::new("no-file");
    pipe(&folder.file());
    assert!(matches!(
        in_work().save(folder.file()),
        Err(FileError::Io { .. })
    ));
    let there = fs::symlink_metadata(folder.file()).unwrap();
    assert!(there.file_type().is_fifo());
    assert_eq!(folder.names(), ["store"]);
}

/// Only files that a save can have left are cleared: neither other names, nor folders, pipes and links of such a name.
#[test]
fn nothing_but_left_files_is_cleared() {
    let folder = Folder::new("left");
    let at = |name: &str| folder.0.join(name);
    for count in 0..300 {
        let name = format!(".pit-{}-{count}.new", std::process::id());
        fs::write(at(&name), "left").unwrap();
    }
    let read_only = at(".pit-7-8.new");
    fs::write(&read_only, "left").unwrap();
    fs::set_permissions(&read_only, Permissions::from_mode(0o444)).unwrap();

    #[rustfmt::skip]
    let others = [".pit--1.new", ".pit-1-.new", ".pit-1-1", ".pit-1-1.new~", ".pit-1-x.new", ".pit-1.new", "pit-1-1.new"];
    others
        .iter()
        .for_each(|name| fs::write(at(name), "kept").unwrap());
    fs::create_dir(at(".pit-1-2.new")).unwrap();
    pipe(&at(".pit-1-3.new"));
    symlink("pit-1-1.new", at(".pit-1-4.new")).unwrap();

    in_work().save(folder.file()).unwrap();
    let mut stay = vec![".pit-1-2.new", ".pit-1-3.new", ".pit-1-4.new", "store"];
    stay.extend(others);
    stay.sort_unstable();
    assert_eq!(folder.names(), stay);
    assert!(Store::load(folder.file()).unwrap() == in_work());
}
