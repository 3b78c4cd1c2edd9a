//! A lock on an open file that ends with its process, however that ends: the system's `flock`. Rust's own library has it
//! from 1.89 on; until that is the oldest Rust here, it is called from the C library.

use std::fs::File;
use std::io::{self, ErrorKind};
use std::os::raw::c_int;
use std::os::unix::io::AsRawFd;

/// One holder alone; and an answer at once, where somebody else holds it.
const EXCLUSIVE: c_int = 2;
const AT_ONCE: c_int = 4;
const NOBODY: c_int = 8;

extern "C" {
    fn flock(descriptor: c_int, operation: c_int) -> c_int;
}

/// Whether the lock was free. It is then held until the file is closed.
pub fn try_hold(file: &File) -> io::Result<bool> {
    loop {
        // SAFETY: it takes two numbers and touches no memory of ours; the borrowed file keeps the descriptor open.
        if unsafe { flock(file.as_raw_fd(), EXCLUSIVE | AT_ONCE) } == 0 {
            return Ok(true);
        }
        let error = io::Error::last_os_error();
        match error.kind() {
            ErrorKind::WouldBlock => return Ok(false),
            ErrorKind::Interrupted => (),
            _ => return Err(error),
        }
    }
}

/// A file whose lock is held, until this is dropped. To close the file is not enough: a process that was just started from this one
/// has it open too, until it runs its own program, and would hold the lock for as long.
pub struct Held {
    pub file: File,
    /// The process that holds it. One that was forked from it has the lock too, and gives nothing back that is not its own.
    process: u32,
}

impl Held {
    /// A file whose lock was just taken.
    pub fn new(file: File) -> Held {
        let process = std::process::id();
        Held { file, process }
    }
}

/// A process that was forked off has the same open file: there the lock is not given back, since it is the other process's.
impl Drop for Held {
    fn drop(&mut self) {
        if self.process == std::process::id() {
            // SAFETY: as above. Where it fails, the lock ends when the file is closed.
            unsafe { flock(self.file.as_raw_fd(), NOBODY) };
        }
    }
}

#[cfg(test)]
mod tests {
    use super::*;
    use crate::disk::file::new::tests::Folder;

    /// A copy of the descriptor, as a process has it that was just started.
    #[test]
    fn a_lock_that_is_dropped_is_free_also_where_the_file_is_still_open() {
        let folder = Folder::new("lock");
        let path = folder.0.join("lock");
        let held = Held::new(File::create(&path).unwrap());
        assert!(try_hold(&held.file).unwrap());
        let copy = held.file.try_clone().unwrap();
        let other = File::open(&path).unwrap();
        assert!(!try_hold(&other).unwrap());
        // as in a process that was forked: it is not its own to be given back
        let file = held.file.try_clone().unwrap();
        drop(Held { file, process: 0 });
        assert!(!try_hold(&other).unwrap());
        drop(held);
        assert!(try_hold(&other).unwrap());
        drop(copy);
    }

    /// A process that was forked off has a copy of what says so.
    #[test]
    fn a_lock_that_is_another_processs_is_not_given_back() {
        let folder = Folder::new("lock-of-another");
        let path = folder.0.join("lock");
        let held = Held::new(File::create(&path).unwrap());
        assert!(try_hold(&held.file).unwrap());
        let forked = Held {
            file: held.file.try_clone().unwrap(),
            process: held.process + 1,
        };
        let other = File::open(&path).unwrap();
        drop(forked);
        assert!(!try_hold(&other).unwrap());
        drop(held);
        assert!(try_hold(&other).unwrap());
    }
}
