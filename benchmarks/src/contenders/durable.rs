//! The store of this repository in a folder, and a plain file: what is written is synced.

use crate::contenders::ours::Ours;
use crate::contenders::shared::{update, Writing};
use crate::contenders::Contender;
use crate::workload::{Shape, Source};
use pit_host::{ByteOffset, Durable, Line, Opened, Options, SyncAt};
use std::fs::File;
use std::os::unix::fs::FileExt;
use std::path::{Path, PathBuf};
use std::sync::atomic::{AtomicU64, Ordering::Relaxed};

const LIVE: Line = Line(0);

/// A folder that is closed, and how it is opened.
pub struct Closed {
    page_size: usize,
    path: PathBuf,
    options: Options,
}

impl Closed {
    pub fn open(self) -> (OursDurable, Opened) {
        let opened = Durable::open(&self.path, self.options);
        let (store, opened) = opened.expect("the folder opens");
        (OursDurable { about: self, store }, opened)
    }
}

/// The store of this repository in a folder. It makes no checkpoint by itself.
pub struct OursDurable {
    about: Closed,
    store: Durable,
}

impl OursDurable {
    /// In a new folder, with the updates that stand in its saved store, and room for so many pages more.
    pub fn new(path: PathBuf, sync: SyncAt, shape: &Shape, more: usize) -> OursDurable {
        let mut ours = Ours::with_room(shape, more);
        ours.updates(&shape.standing(), &Source::new(shape.page_size));
        let about = Closed {
            page_size: shape.page_size,
            path,
            options: Options::new().sync(sync).checkpoint_at(0),
        };
        let store = Durable::create(&about.path, ours.into_store(), about.options);
        OursDurable {
            store: store.expect("there can be a folder on the disk"),
            about,
        }
    }

    pub fn close(self) -> Closed {
        self.about
    }

    /// The newest version's first pages.
    pub fn copied(&self, pages: usize) -> Vec<u8> {
        let newest = self.store.recent(LIVE).expect("the line has begun");
        let mut copy = vec![0; pages * self.about.page_size];
        let read = self.store.read(LIVE, newest, ByteOffset(0), &mut copy);
        read.expect("the pages are there");
        copy
    }

    /// The journal's length in bytes.
    pub fn journal(&self) -> u64 {
        self.store.journal_length()
    }
}

impl Writing for OursDurable {
    fn update(&self, first: usize, bytes: &[u8]) {
        update(&self.store, self.about.page_size, first, bytes);
    }

    fn settle(&self) {
        self.store.sync().expect("the journal is synced");
    }
}

/// A file to whose end the bytes of each update are written, and then synced.
pub struct PlainFile {
    file: File,
    length: AtomicU64,
}

impl PlainFile {
    pub fn new(path: &Path) -> PlainFile {
        PlainFile {
            file: File::create(path).expect("there can be a file on the disk"),
            length: AtomicU64::new(0),
        }
    }
}

impl Writing for PlainFile {
    fn update(&self, _first: usize, bytes: &[u8]) {
        let end = self.length.fetch_add(bytes.len() as u64, Relaxed);
        let written = self.file.write_all_at(bytes, end);
        let synced = written.and_then(|()| self.file.sync_data());
        synced.expect("the file is written and synced");
    }
}
