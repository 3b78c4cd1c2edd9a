//! The files of a folder.

use super::look;
use crate::disk::file::{at, at_folder, plain, FileError};
use crate::disk::journal::Input;
use std::fs::{self, DirBuilder, File};
use std::io;
use std::ops::RangeInclusive;
use std::os::unix::fs::DirBuilderExt;
use std::path::{Path, PathBuf};

const STORE: &str = "store-";
const JOURNAL: &str = "journal-";

pub fn store_in(folder: &Path, generation: u64) -> PathBuf {
    folder.join(format!("{STORE}{generation}"))
}

pub fn journal_in(folder: &Path, generation: u64) -> PathBuf {
    folder.join(format!("{JOURNAL}{generation}"))
}

/// The generations of which a folder has saved stores and journals, lowest first.
#[derive(Debug, Default, PartialEq, Eq)]
pub struct Listing {
    pub stores: Vec<u64>,
    pub journals: Vec<u64>,
}

pub fn list(folder: &Path) -> Result<Listing, FileError> {
    let mut listing = Listing::default();
    for entry in fs::read_dir(folder).map_err(at_folder(folder))? {
        let name = entry.map_err(at_folder(folder))?.file_name();
        let name = name.to_str().unwrap_or_default();
        listing.stores.extend(generation_in(name, STORE));
        listing.journals.extend(generation_in(name, JOURNAL));
    }
    listing.stores.sort_unstable();
    listing.journals.sort_unstable();
    Ok(listing)
}

/// The generation in a file's name, if it is written there as it is written here. No folder gets to the highest numbers.
fn generation_in(name: &str, before: &str) -> Option<u64> {
    let digits = name.strip_prefix(before)?;
    let generation: u64 = digits.parse().ok()?;
    (generation < u64::MAX / 2 && generation.to_string() == digits).then_some(generation)
}

/// Removes the files of a folder that are needed no more: all stores but that of the first of these generations, and all journals of
/// others. The names of those that stay are on the disk before. What cannot be removed keeps nothing else from being so.
pub fn clear(folder: &Path, needed: RangeInclusive<u64>) -> Result<(), FileError> {
    sync_folder(folder).map_err(at_folder(folder))?;
    let listing = list(folder)?;
    let stores = listing.stores.into_iter().filter(|g| g != needed.start());
    let journals = listing.journals.into_iter().filter(|g| !needed.contains(g));
    let removed = stores
        .map(|g| store_in(folder, g))
        .chain(journals.map(|g| journal_in(folder, g)))
        .map(|path| fs::remove_file(&path).map_err(at(&path)));
    let removed: Vec<Result<(), FileError>> = removed.collect(); // each is tried
    sync_folder(folder).map_err(at_folder(folder))?;
    removed.into_iter().collect()
}

/// Removes what making a folder has made of this generation, the saved store first: a crash in between leaves a journal without
/// entries, which the next one to make the folder removes. A store that cannot be removed keeps its journal.
pub fn unmake(folder: &Path, generation: u64) {
    let remove = |path: PathBuf| match fs::remove_file(path) {
        Err(e) if e.kind() == io::ErrorKind::NotFound => Ok(()),
        done => done,
    };
    if remove(store_in(folder, generation)).is_ok() {
        let _ = sync_folder(folder); // where that fails too, no order can be kept
        let _ = remove(journal_in(folder, generation));
        let _ = sync_folder(folder);
    }
}

/// Makes a folder with this mode, where there is none, and those that it is in, with the usual one; the names of those that it makes are
/// then on the disk.
pub fn make_folder(path: &Path, mode: u32) -> io::Result<()> {
    if path.as_os_str().is_empty() || path.is_dir() {
        return Ok(());
    }
    make_folders(path.parent())?;
    DirBuilder::new().mode(mode).create(path)?;
    plain::set_folder_mode(path, mode)?;
    sync_parent(path)
}

fn make_folders(path: Option<&Path>) -> io::Result<()> {
    match path {
        Some(path) if !path.as_os_str().is_empty() && !path.is_dir() => {
            make_folders(path.parent())?;
            fs::create_dir(path)?;
            sync_parent(path)
        }
        _ => Ok(()),
    }
}

/// Forces a folder's own name to the disk.
fn sync_parent(path: &Path) -> io::Result<()> {
    let parent = path.parent().unwrap_or_else(|| Path::new(""));
    match parent.as_os_str().is_empty() {
        true => sync_folder(Path::new(".")),
        false => sync_folder(parent),
    }
}

/// A folder's own path, which names it wherever the process goes: by a relative one it would later name another.
pub fn found(path: &Path) -> Result<PathBuf, FileError> {
    fs::canonicalize(path).map_err(at_folder(path))
}

/// Forces the names in a folder to the disk.
pub fn sync_folder(folder: &Path) -> io::Result<()> {
    File::open(folder)?.sync_all()
}

/// A new, empty journal, whose name is on the disk. What is left there of one that was only begun is removed; nothing else is.
pub fn new_journal(folder: &Path, generation: u64, mode: u32) -> Result<File, FileError> {
    let path = journal_in(folder, generation);
    if is_only_begun(&path, generation).map_err(at(&path))? {
        fs::remove_file(&path).map_err(at(&path))?;
    }
    let file = plain::new_file(&path, mode).map_err(at(&path))?;
    sync_folder(folder).map_err(at_folder(folder))?;
    Ok(file)
}

/// Whether a journal is there that counts as not there.
fn is_only_begun(path: &Path, generation: u64) -> io::Result<bool> {
    if plain::found(path)?.is_none() {
        return Ok(false);
    }
    let journal = Input::new(plain::to_read(path)?, path)?;
    Ok(match journal.header(generation) {
        Ok(header) => look::is_only_begun(header.as_ref(), &journal),
        Err(_) => false,
    })
}
