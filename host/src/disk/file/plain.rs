//! Plain files, and nothing else in their place: what is opened here is no folder, pipe or device, and nothing waits for one.

use std::fs::{self, File, FileType, Metadata, OpenOptions, Permissions};
use std::io::{self, ErrorKind};
use std::os::unix::fs::{FileTypeExt, MetadataExt, OpenOptionsExt, PermissionsExt};
use std::path::Path;

/// The system's flags: no link is followed; and nothing waited for, as a pipe that nobody writes to.
const NO_LINK: i32 = 0o400_000;
const AT_ONCE: i32 = 0o4_000;
/// Both: a file that is opened whatever it is.
pub const AS_IT_IS: i32 = NO_LINK | AT_ONCE;

/// The bits of a mode that say who may do what.
const MODE: u32 = 0o7777;

/// Opens a plain file to read. A link is none.
pub fn to_read(path: &Path) -> io::Result<File> {
    opened(OpenOptions::new().read(true), path)
}

/// Opens a plain file to read and write. A link is none.
pub fn to_write(path: &Path) -> io::Result<File> {
    opened(OpenOptions::new().read(true).write(true), path)
}

/// Opens the plain file that a path names, or leads to by links, to read.
pub fn to_read_by_links(path: &Path) -> io::Result<File> {
    let file = OpenOptions::new()
        .read(true)
        .custom_flags(AT_ONCE)
        .open(path)?;
    check(file.metadata()?.file_type())?;
    Ok(file)
}

fn opened(options: &mut OpenOptions, path: &Path) -> io::Result<File> {
    match options.custom_flags(AS_IT_IS).open(path) {
        Ok(file) => {
            check(file.metadata()?.file_type())?;
            Ok(file)
        }
        Err(error) => {
            found(path)?; // what is there says more than the system's number
            Err(error)
        }
    }
}

/// What is at a path, if anything is; an error where that is no plain file.
pub fn found(path: &Path) -> io::Result<Option<Metadata>> {
    match fs::symlink_metadata(path) {
        Ok(found) => {
            check(found.file_type())?;
            Ok(Some(found))
        }
        Err(e) if e.kind() == ErrorKind::NotFound => Ok(None),
        Err(e) => Err(e),
    }
}

/// Checks that it is a plain file.
fn check(kind: FileType) -> io::Result<()> {
    let what = match kind {
        _ if kind.is_file() => return Ok(()),
        _ if kind.is_symlink() => "a symbolic link",
        _ if kind.is_dir() => "a folder",
        _ if kind.is_fifo() => "a pipe",
        _ if kind.is_socket() => "a socket",
        _ => "a device",
    };
    let words = format!("it is {what}, and no plain file");
    Err(io::Error::new(ErrorKind::InvalidInput, words))
}

/// A new file with just this mode, to read and write. Whatever is there already is neither opened nor changed.
pub fn new_file(path: &Path, mode: u32) -> io::Result<File> {
    let mut options = OpenOptions::new();
    options.read(true).write(true).create_new(true).mode(mode);
    match options.open(path) {
        Ok(file) => {
            set_mode(&file, mode)?;
            Ok(file)
        }
        Err(error) => {
            found(path)?;
            Err(error)
        }
    }
}

/// Gives a file that was just made this mode, whatever the process's mask has left of it. A file system that has but one mode keeps that.
pub fn set_mode(file: &File, mode: u32) -> io::Result<()> {
    let now = file.metadata()?.mode();
    set(now, mode, |mode| file.set_permissions(mode))
}

/// The same of a folder, which cannot be opened where the mask has left too little.
pub fn set_folder_mode(path: &Path, mode: u32) -> io::Result<()> {
    let now = fs::symlink_metadata(path)?.mode();
    set(now, mode, |mode| fs::set_permissions(path, mode))
}

fn set(now: u32, mode: u32, set: impl FnOnce(Permissions) -> io::Result<()>) -> io::Result<()> {
    if now & MODE == mode {
        return Ok(());
    }
    match set(Permissions::from_mode(mode)) {
        Err(e) if e.kind() == ErrorKind::PermissionDenied => Ok(()),
        done => done,
    }
}

/// Takes from a file's mode what this one has not, where its owner asks for it.
pub fn narrow_mode(file: &File, mode: u32) -> io::Result<()> {
    let now = file.metadata()?.mode() & MODE;
    match now & !mode {
        0 => Ok(()),
        _ => file.set_permissions(Permissions::from_mode(now & mode)),
    }
}
