//! A folder on a disk, for what is saved and synced.

use std::path::{Path, PathBuf};
use std::{fs, process};

/// What the names of such folders begin with; the process and a name of its own follow.
const PREFIX: &str = "pit-bench-";

/// A folder of this run's own. It is removed with all that is in it.
pub struct Scratch(PathBuf);

impl Scratch {
    /// A new one in this folder.
    pub fn new(disk: &Path, name: &str) -> Scratch {
        clear(disk);
        let path = disk.join(format!("{PREFIX}{}-{name}", process::id()));
        fs::create_dir_all(&path).expect("there can be a folder on the disk");
        Scratch(path)
    }

    /// The path of a file or folder in it.
    pub fn path(&self, name: &str) -> PathBuf {
        self.0.join(name)
    }
}

impl Drop for Scratch {
    fn drop(&mut self) {
        let _ = fs::remove_dir_all(&self.0); // what is left lies in the build's folder
    }
}

/// Removes what runs have left that were broken off.
fn clear(disk: &Path) {
    for entry in fs::read_dir(disk).into_iter().flatten().flatten() {
        let name = entry.file_name();
        let rest = name.to_str().and_then(|name| name.strip_prefix(PREFIX));
        let process = rest.and_then(|rest| rest.split_once('-')?.0.parse::<u32>().ok());
        let lives = |process: u32| Path::new("/proc").join(process.to_string()).exists();
        if process.map_or(false, |process| !lives(process)) {
            let _ = fs::remove_dir_all(entry.path()); // what cannot be removed does no harm
        }
    }
}
