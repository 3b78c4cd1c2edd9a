//! A file that takes another's place only when it is whole and on the disk.

use super::lock::try_hold;
use super::plain::{self, AS_IT_IS};
use super::SavePlace;
use std::ffi::OsStr;
use std::fs::{self, File, OpenOptions, Permissions};
use std::io::{self, ErrorKind};
use std::os::unix::fs::{MetadataExt, OpenOptionsExt};
use std::path::{Path, PathBuf};
use std::sync::atomic::{AtomicU64, Ordering};

/// As many links as the system itself follows, and its error where there are more.
const MOST_LINKS: usize = 40;
const TOO_MANY_LINKS: i32 = 40;
/// The system's errors where a file system has no locks.
const NO_LOCKS: [Option<i32>; 2] = [Some(38), Some(95)];

/// A new file in the folder of the one that it is to replace. It is removed again unless it does.
///
/// Its maker holds a lock on it, which the system ends with the process. So a file of such a name that nobody holds was
/// left by a process that died in the middle of a save, and the next save in that folder clears it.
pub struct NewFile {
    target: PathBuf,
    path: PathBuf,
    pub file: File,
    /// The old file's, where there is one.
    permissions: Option<Permissions>,
    in_place: bool,
}

impl NewFile {
    /// A new file for a place.
    pub fn at(place: &SavePlace) -> io::Result<NewFile> {
        match place.mode {
            None => NewFile::for_place_of(&place.path),
            Some(mode) => NewFile::in_folder(&place.path, mode),
        }
    }

    /// One for the place of the file that a path names, or leads to by links, with its mode.
    fn for_place_of(path: &Path) -> io::Result<NewFile> {
        let target = followed(path)?;
        let permissions = old_permissions(&target)?;
        // nobody else reads what may have been closed to them
        let mode = permissions.as_ref().map_or(0o666, |_| 0o600);
        let mut new = NewFile::made(target, mode)?;
        new.permissions = permissions;
        Ok(new)
    }

    /// One for the place of the plain file that a path names, with this mode. No link is followed, and none replaced.
    pub fn in_folder(path: &Path, mode: u32) -> io::Result<NewFile> {
        plain::found(path)?;
        let new = NewFile::made(path.to_path_buf(), mode)?;
        plain::set_mode(&new.file, mode)?;
        Ok(new)
    }

    fn made(target: PathBuf, mode: u32) -> io::Result<NewFile> {
        let folder = folder_of(&target)?;
        clear(folder);
        let (path, file) = made_in(folder, mode)?;
        Ok(NewFile {
            target,
            path,
            file,
            permissions: None,
            in_place: false,
        })
    }

    /// Puts the file, whole and on the disk, in the old one's place.
    pub fn replace(mut self) -> io::Result<()> {
        if let Some(permissions) = self.permissions.take() {
            // not where they are right already: some file systems have but one mode, and change none
            if self.file.metadata()?.permissions() != permissions {
                self.file.set_permissions(permissions)?;
            }
        }
        self.file.sync_all()?;
        fs::rename(&self.path, &self.target)?;
        self.in_place = true;
        File::open(folder_of(&self.target)?)?.sync_all()
    }
}

impl Drop for NewFile {
    fn drop(&mut self) {
        if !self.in_place {
            let _ = fs::remove_file(&self.path); // nothing more can be done, and the first error counts
        }
    }
}

/// The path at the end of all links: what they lead to is replaced, and they stay.
fn followed(path: &Path) -> io::Result<PathBuf> {
    let mut path = path.to_path_buf();
    for _ in 0..=MOST_LINKS {
        match fs::read_link(&path) {
            Ok(to) => path = folder_of(&path)?.join(to),
            Err(_) => return Ok(path), // no link; or nothing that can be opened, as whoever opens it is told
        }
    }
    Err(io::Error::from_raw_os_error(TOO_MANY_LINKS))
}

/// The folder that a file is or will be in.
fn folder_of(target: &Path) -> io::Result<&Path> {
    if target.file_name().is_none() {
        return Err(io::Error::new(
            ErrorKind::InvalidInput,
            "the path names no file",
        ));
    }
    match target.parent() {
        Some(folder) if !folder.as_os_str().is_empty() => Ok(folder),
        _ => Ok(Path::new(".")),
    }
}

/// The permissions of the file at a path, if one is there. Anything but a file is not replaced.
fn old_permissions(target: &Path) -> io::Result<Option<Permissions>> {
    match fs::metadata(target) {
        Ok(old) if old.is_file() => Ok(Some(old.permissions())),
        Ok(_) => Err(io::Error::new(
            ErrorKind::InvalidInput,
            "the path names a folder, a device or the like",
        )),
        Err(e) if e.kind() == ErrorKind::NotFound => Ok(None),
        Err(e) => Err(e),
    }
}

/// A new file in a folder, by a name that no other process and no other save has, and locked.
fn made_in(folder: &Path, mode: u32) -> io::Result<(PathBuf, File)> {
    static COUNT: AtomicU64 = AtomicU64::new(0);
    loop {
        let count = COUNT.fetch_add(1, Ordering::Relaxed);
        let path = folder.join(format!(".pit-{}-{count}.new", std::process::id()));
        let mut new = OpenOptions::new();
        match new.write(true).create_new(true).mode(mode).open(&path) {
            Ok(file) if is_ours(&file, &path)? => return Ok((path, file)),
            Ok(_) => (), // cleared before it was locked
            Err(e) if e.kind() == ErrorKind::AlreadyExists => (), // held, or nobody may clear it
            Err(e) => return Err(e),
        }
    }
}

/// Locks a file that was just made. Another save may have found it before that, held by nobody, and cleared it: then
/// the path no longer names it, or the lock is that save's, and it is not ours.
fn is_ours(file: &File, path: &Path) -> io::Result<bool> {
    match try_hold(file) {
        Ok(held) => Ok(held && is_at(file, path)?),
        // without locks nobody clears anything, and all is as if there had been no need to
        Err(e) if NO_LOCKS.contains(&e.raw_os_error()) => Ok(true),
        Err(e) => {
            let _ = fs::remove_file(path);
            Err(e)
        }
    }
}

/// Whether a path names this very file.
pub fn is_at(file: &File, path: &Path) -> io::Result<bool> {
    let file = file.metadata()?;
    match fs::symlink_metadata(path) {
        Ok(there) => Ok((there.dev(), there.ino()) == (file.dev(), file.ino())),
        Err(e) if e.kind() == ErrorKind::NotFound => Ok(false),
        Err(e) => Err(e),
    }
}

/// Clears a folder of the files that nobody holds. What cannot be cleared is left: no save needs it gone.
pub fn clear(folder: &Path) {
    for entry in fs::read_dir(folder).into_iter().flatten().flatten() {
        if is_a_saves_name(&entry.file_name()) {
            let _ = clear_if_unheld(&entry.path());
        }
    }
}

/// `.pit-`, a process, a count and `.new`.
fn is_a_saves_name(name: &OsStr) -> bool {
    let middle = name.to_str().and_then(|name| name.strip_prefix(".pit-"));
    let numbers = middle.and_then(|middle| middle.strip_suffix(".new")?.split_once('-'));
    let is_number = |text: &str| !text.is_empty() && text.bytes().all(|b| b.is_ascii_digit());
    numbers.map_or(false, |(process, count)| {
        is_number(process) && is_number(count)
    })
}

/// Removes a file unless somebody holds it. Its lock is held meanwhile, so that what is removed is what was looked at.
fn clear_if_unheld(path: &Path) -> io::Result<()> {
    let open = |write| {
        let mut options = OpenOptions::new();
        options.read(true).write(write).custom_flags(AS_IT_IS);
        options.open(path)
    };
    // some file systems lock only what can be written; a file that was to be read-only can be locked elsewhere
    let file = open(true).or_else(|_| open(false))?;
    if file.metadata()?.is_file() && try_hold(&file)? && is_at(&file, path)? {
        fs::remove_file(path)?;
    }
    Ok(())
}

#[cfg(test)]
pub mod tests {
    use super::*;

    /// A folder of one test's own, removed again.
    pub struct Folder(pub PathBuf);

    impl Folder {
        pub fn new(name: &str) -> Folder {
            let path = std::env::temp_dir().join(format!("pit-new-{name}-{}", std::process::id()));
            fs::create_dir_all(&path).unwrap();
            Folder(path)
        }

        fn new_file(&self, name: &str) -> NewFile {
            NewFile::for_place_of(&self.0.join(name)).unwrap()
        }
    }

    impl Drop for Folder {
        fn drop(&mut self) {
            let _ = fs::remove_dir_all(&self.0);
        }
    }

    #[test]
    fn what_is_held_stays_and_what_is_left_goes() {
        let folder = Folder::new("held");
        let mut first = folder.new_file("store");
        let second = folder.new_file("store");
        assert!(first.path.exists() && second.path.exists() && first.path != second.path);
        let left = first.path.clone();
        first.in_place = true; // as where its process dies: closed, and not removed
        drop(first);
        assert!(left.exists());
        let third = folder.new_file("other");
        assert!(!left.exists() && second.path.exists() && third.path.exists());
        second.replace().unwrap();
        third.replace().unwrap();
        assert_eq!(fs::read_dir(&folder.0).unwrap().count(), 2);
    }

    /// Between the making of a file and its lock another save may clear it.
    #[test]
    fn a_file_that_was_cleared_before_its_lock_is_not_ours() {
        let folder = Folder::new("cleared");
        let path = folder.0.join(".pit-1-1.new");
        let make = || File::create(&path).unwrap();

        let file = make();
        clear(&folder.0);
        assert!(!path.exists() && !is_ours(&file, &path).unwrap());
        // and by its name stands another's
        make();
        assert!(!is_ours(&file, &path).unwrap());
        // a save that is just clearing it has the lock
        let (file, clearing) = (make(), File::open(&path).unwrap());
        assert!(try_hold(&clearing).unwrap());
        assert!(!is_ours(&file, &path).unwrap());
        drop(clearing);
        assert!(is_ours(&file, &path).unwrap());
        clear(&folder.0);
        assert!(path.exists());
    }

    /// Nobody else reads a new file while the old one is closed to them.
    #[test]
    fn a_new_file_is_private_beside_an_old_one() {
        let folder = Folder::new("private");
        assert!(folder.new_file("store").permissions.is_none());
        fs::write(folder.0.join("store"), "").unwrap();
        let new = folder.new_file("store");
        assert_eq!(new.file.metadata().unwrap().mode() & 0o777, 0o600);
    }
}
