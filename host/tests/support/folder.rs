//! A folder of one test's own.

use std::fs;
use std::path::{Path, PathBuf};
use std::sync::atomic::{AtomicU64, Ordering};

/// It is removed again at the end.
pub struct Folder(pub PathBuf);

impl Folder {
    pub fn new(name: &str) -> Folder {
        Folder::within(&std::env::temp_dir(), name)
    }

    /// One in memory, where the system has a place for such: for tests that open thousands of stores and care for no disk.
    pub fn in_memory(name: &str) -> Folder {
        let memory = Path::new("/dev/shm");
        match std::env::var_os("TMPDIR") {
            None if memory.is_dir() => Folder::within(memory, name),
            _ => Folder::new(name),
        }
    }

    /// The number tells the folders of one program's tests apart, whatever they are named.
    fn within(place: &Path, name: &str) -> Folder {
        static MADE: AtomicU64 = AtomicU64::new(0);
        let number = MADE.fetch_add(1, Ordering::Relaxed);
        let path = place.join(format!("pit-{name}-{}-{number}", std::process::id()));
        fs::create_dir_all(&path).expect("a folder for temporary files");
        Folder(path)
    }

    /// The names of everything in it.
    pub fn names(&self) -> Vec<String> {
        let entries = fs::read_dir(&self.0).unwrap();
        let name = |entry: fs::DirEntry| entry.file_name().to_string_lossy().into_owned();
        let mut names: Vec<_> = entries.map(|entry| name(entry.unwrap())).collect();
        names.sort();
        names
    }

    pub fn path(&self, name: &str) -> PathBuf {
        self.0.join(name)
    }

    /// The file of a store that is saved in it.
    pub fn file(&self) -> PathBuf {
        self.path("store")
    }

    /// All files but the lock, with their names.
    pub fn files(&self) -> Vec<(String, Vec<u8>)> {
        let names = self.names().into_iter().filter(|name| name != "lock");
        let read = |name: String| {
            let bytes = fs::read(self.path(&name)).unwrap();
            (name, bytes)
        };
        names.map(read).collect()
    }

    /// Has just these files from here on.
    pub fn set(&self, files: &[(String, Vec<u8>)]) {
        for name in self.names() {
            fs::remove_file(self.path(&name)).unwrap();
        }
        for (name, bytes) in files {
            fs::write(self.path(name), bytes).unwrap();
        }
    }

    /// The generations of the files with such names, lowest first: of "store-" or "journal-".
    pub fn generations(&self, of: &str) -> Vec<u64> {
        let names = self.names().into_iter();
        let generation = |name: String| name.strip_prefix(of)?.parse().ok();
        let mut generations: Vec<u64> = names.filter_map(generation).collect();
        generations.sort_unstable();
        generations
    }
}

impl Drop for Folder {
    fn drop(&mut self) {
        let _ = fs::remove_dir_all(&self.0);
    }
}
