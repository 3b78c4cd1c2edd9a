//! What a user would pick: LMDB, a value a page under the page's index, a write transaction an update.

use crate::contenders::lmdb::{Commit, Database};
use crate::contenders::shared::LmdbShared;
use crate::contenders::Contender;
use crate::workload::Shape;
use std::path::Path;
use std::sync::atomic::{AtomicU32, Ordering};
use std::{fs, process};

/// A memory file system, so that no disk is measured.
pub const FOLDER: &str = "/dev/shm";

/// Room for any blob, and for what updates replace while somebody still reads it.
const MAP_SIZE: usize = 1 << 30;

/// LMDB keeps the newest version only: once a transaction is committed and no reader holds the one before, the pages
/// that it replaced are used again. So its updates have no room to run out of, and nothing to go back to.
pub struct LmdbPages {
    page_size: usize,
    database: Database,
}

impl LmdbPages {
    pub fn new(shape: &Shape) -> LmdbPages {
        static MADE: AtomicU32 = AtomicU32::new(0);
        let number = MADE.fetch_add(1, Ordering::Relaxed);
        let name = format!("pit-bench-{}-{number}", process::id());
        let file = Path::new(FOLDER).join(&name);
        let database = Database::create(&file, MAP_SIZE, Commit::Unsynced);
        // open files outlive their names, so nothing is left behind however the run ends
        for name in [name.clone(), name + "-lock"] {
            fs::remove_file(Path::new(FOLDER).join(name)).expect("LMDB has made its files");
        }
        LmdbPages {
            page_size: shape.page_size,
            database,
        }
    }

    /// In this file on a disk, each update synced. The file stays.
    pub fn on_disk(shape: &Shape, file: &Path, commit: Commit) -> LmdbPages {
        LmdbPages {
            page_size: shape.page_size,
            database: Database::create(file, MAP_SIZE, commit),
        }
    }

    /// The same for threads.
    pub fn shared(&mut self) -> LmdbShared<'_> {
        LmdbShared {
            page_size: self.page_size,
            database: self.database.threads(),
        }
    }
}

impl Contender for LmdbPages {
    fn update(&mut self, first: usize, bytes: &[u8]) {
        self.database
            .write(first, bytes.chunks_exact(self.page_size));
    }

    fn view(&self, _version: usize, page: usize) -> &[u8] {
        self.database.get(page)
    }

    fn keeps_versions(&self) -> bool {
        false
    }

    fn before_updates(&mut self) {
        self.database.end_reads();
    }

    fn before_reads(&mut self) {
        self.database.begin_reads();
    }
}
