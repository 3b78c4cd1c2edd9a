//! A store with its folder, and copies of folders.

use crate::calls::store::Store;
use crate::disk::file::FileError;
use crate::disk::folder::{Folder, Opened, Options};
use crate::disk::journal::tests::random::Random;
pub use crate::disk::journal::tests::scene::Scratch;
use crate::disk::journal::tests::scene::{change, empty_store};
use crate::shared::numbering::Numbering;
use std::fs;
use std::path::Path;

/// A running store, as the shared one has it, for one thread.
pub struct Run {
    pub store: Store,
    pub folder: Folder,
    random: Random,
}

impl Run {
    pub fn create(path: &Path, seed: u64) -> Run {
        let store = empty_store();
        let folder = Folder::create(path, &store, Options::new()).unwrap();
        Run {
            store,
            folder,
            random: Random::new(seed),
        }
    }

    /// So many random calls, of which every fifth waits for the disk.
    pub fn calls(&mut self, count: u64) {
        for k in 0..count {
            let folder = &self.folder;
            folder.journal().ready().unwrap();
            let mut number = 0;
            change(&mut self.store, &mut self.random, |call| {
                number = folder.journal().take(call);
            });
            folder.journal().keep(number, k % 5 == 0).unwrap();
        }
    }

    /// A whole checkpoint.
    pub fn checkpoint(&self) {
        self.folder.begin_generation().unwrap();
        self.folder.switch().unwrap();
        let place = self.folder.settle().unwrap();
        self.store.save_at(&place).unwrap();
        self.folder.end_generation().unwrap();
    }
}

/// A copy of a folder, as it is at this moment.
pub fn copy(from: &Path, to: &Path) {
    fs::create_dir_all(to).unwrap();
    for entry in fs::read_dir(from).unwrap() {
        let entry = entry.unwrap();
        fs::copy(entry.path(), to.join(entry.file_name())).unwrap();
    }
}

/// Opens a folder, and closes it again.
pub fn open(path: &Path) -> Result<(Store, Opened), FileError> {
    let (store, numbering, folder, opened) = Folder::open(path, Options::new())?;
    assert_eq!(numbering, Numbering::default());
    folder.journal().ready()?;
    Ok((store, opened))
}

/// The names of a folder's files, in order; but for the note of a close, which says nothing of other journals.
pub fn names(path: &Path) -> Vec<String> {
    let entries = fs::read_dir(path).unwrap();
    let name = |entry: std::io::Result<fs::DirEntry>| entry.unwrap().file_name();
    let mut names: Vec<_> = entries
        .map(|entry| name(entry).into_string().unwrap())
        .filter(|name| name != "closed")
        .collect();
    names.sort();
    names
}
