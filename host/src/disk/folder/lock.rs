//! Who has a folder open: its locks.

use crate::disk::file::lock::{try_hold, Held};
use crate::disk::file::new::is_at;
use crate::disk::file::{at, at_folder, plain, FileError};
use crate::disk::journal::is_no_room;
use std::fs::{self, File};
use std::io::{self, Read, Write};
use std::os::unix::fs::MetadataExt;
use std::path::Path;

const LOCK: &str = "lock";

/// The locks of a folder that is open, given back together.
pub struct FolderLock {
    /// On the file `lock`, in which the process is written. None where the disk had no room for it.
    file: Option<Held>,
    /// On the folder itself: a `lock` that somebody removes lets nobody in.
    folder: Held,
}

impl FolderLock {
    /// Locks a folder, and writes down for whom. Its file `lock` has at most this mode then, where it is this user's: whoever may read
    /// it can hold it.
    pub fn of(folder: &Path, mode: u32) -> Result<FolderLock, FileError> {
        let itself = File::open(folder).map_err(at_folder(folder))?;
        if !try_hold(&itself).map_err(at_folder(folder))? {
            return Err(in_use(folder));
        }
        let itself = Held::new(itself);
        let path = folder.join(LOCK);
        let mut file = match open_or_make(&path, mode) {
            // with no room for it the folder's own lock is enough
            Err(e) if is_no_room(&e) => {
                return Ok(FolderLock {
                    file: None,
                    folder: itself,
                })
            }
            file => file.map_err(at(&path))?,
        };
        if !try_hold(&file).map_err(at(&path))? {
            return Err(in_use(folder));
        }
        let _ = plain::narrow_mode(&file, mode); // another user's keeps its own
        write_process(&mut file);
        Ok(FolderLock {
            file: Some(Held::new(file)),
            folder: itself,
        })
    }

    /// Whether a path names the folder with these locks.
    pub fn is_at(&self, folder: &Path) -> Result<bool, FileError> {
        let path = folder.join(LOCK);
        let is_there = match &self.file {
            Some(file) => is_at(&file.file, &path).map_err(at(&path))?,
            None => true,
        };
        Ok(is_there && is_at(&self.folder.file, folder).map_err(at_folder(folder))?)
    }
}

fn open_or_make(path: &Path, mode: u32) -> io::Result<File> {
    match plain::to_write(path) {
        Err(e) if e.kind() == io::ErrorKind::NotFound => plain::new_file(path, mode),
        opened => opened,
    }
}

/// Writes down for whom a lock is held. A full disk keeps nobody out: the lock is what counts. Where the file has another name too,
/// which may be somebody's, nothing is written.
fn write_process(file: &mut File) {
    if file.metadata().map_or(true, |file| file.nlink() > 1) {
        return;
    }
    let process = format!("{}\n", std::process::id());
    let _ = file
        .write_all(process.as_bytes())
        .and_then(|()| file.set_len(process.len() as u64));
}

/// The error of a folder that is open: with the process, by the system's list of locks or as it is written in `lock`.
fn in_use(folder: &Path) -> FileError {
    let process = match open_by(folder) {
        Ok(OpenBy::Process(process)) => Some(process),
        _ => process_in(&folder.join(LOCK)),
    };
    FileError::InUse { process }
}

/// Which process has a folder open.
#[derive(Clone, Copy, Debug, PartialEq, Eq)]
#[non_exhaustive]
pub enum OpenBy {
    /// None; or one that this one is not told of, as from inside a container.
    Nobody,
    /// This one.
    Process(u32),
    /// The system does not tell.
    NotKnown,
}

/// Where the system lists all locks on files.
const LOCKS: &str = "/proc/locks";

/// Which process has a folder open, by the system's list of locks: on its `lock`, or on itself where that is gone. No lock is touched: one
/// who wanted to open the folder just then would be refused. An error where `lock` is no plain file, since nobody can then open the folder.
pub fn open_by(folder: &Path) -> Result<OpenBy, FileError> {
    let path = folder.join(LOCK);
    let lock = plain::found(&path).map_err(at(&path))?;
    let itself = fs::metadata(folder).map_err(at_folder(folder))?;
    let locks = match locks() {
        Ok(locks) => locks,
        Err(_) => return Ok(OpenBy::NotKnown),
    };
    let locked = [lock, Some(itself)];
    let written = process_in(&path);
    let holder_in = |line: &str| {
        let mut locked = locked.iter().flatten();
        locked.find_map(|file| holder(line, file, written))
    };
    let process = locks.lines().find_map(holder_in);
    Ok(process.map_or(OpenBy::Nobody, OpenBy::Process))
}

/// The system's list of locks, in one read where it is not long: between two the list moves, and a line can be left out.
fn locks() -> io::Result<String> {
    let mut text = Vec::with_capacity(1 << 16);
    File::open(LOCKS)?.read_to_end(&mut text)?;
    Ok(String::from_utf8_lossy(&text).into_owned())
}

/// The process that holds the lock on a file or folder, if that is what a line of the list says: `1: FLOCK ADVISORY WRITE 4711
/// fe:00:10952769 0 EOF`. Some file systems have there another device than the file; then it is the process that is written in `lock`.
fn holder(line: &str, locked: &fs::Metadata, written: Option<u32>) -> Option<u32> {
    let mut words = line.split_whitespace().skip(1);
    if words.next() != Some("FLOCK") || words.nth(1) != Some("WRITE") {
        return None;
    }
    let process: u32 = words.next()?.parse().ok()?;
    let mut place = words.next()?.split(':');
    let mut number = || u64::from_str_radix(place.next()?, 16).ok();
    let device = (number()?, number()?);
    let inode: u64 = place.next()?.parse().ok()?;
    let is_this = device == device_of(locked) || written == Some(process);
    (inode == locked.ino() && is_this).then_some(process)
}

/// The two numbers of the device that a file is on.
fn device_of(file: &fs::Metadata) -> (u64, u64) {
    let device = file.dev();
    let major = (device >> 8 & 0xfff) | (device >> 32 & 0xffff_f000);
    let minor = (device & 0xff) | (device >> 12 & 0xffff_ff00);
    (major, minor)
}

/// The process that a lock's file names.
fn process_in(path: &Path) -> Option<u32> {
    let mut text = String::new();
    let file = plain::to_read(path).ok()?;
    file.take(20).read_to_string(&mut text).ok()?;
    text.trim_end().parse().ok()
}
