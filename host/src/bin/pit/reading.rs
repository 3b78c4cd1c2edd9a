//! Versions read whole, and checked.

use crate::progress::Progress;
use pit_host::{ByteOffset, Line, PageIndex, Shared, Version};
use std::sync::atomic::{AtomicU64, AtomicUsize, Ordering::Relaxed};
use std::sync::{Mutex, PoisonError};
use std::thread;

/// How many pages are read at a time: what a processor keeps at hand.
const PAGES_AT_A_TIME: usize = 16;

/// Versions that are being read, by some threads beside each other.
pub struct Reading<'a> {
    store: &'a Shared,
    all: &'a [(Line, Version)],
    page_size: u64,
    /// Is told of each that is read.
    progress: &'a Progress,
    /// The next one to be read.
    next: AtomicUsize,
    pages: AtomicU64,
    /// The first fault: its version's place, and its words.
    fault: Mutex<Option<(usize, String)>>,
}

impl<'a> Reading<'a> {
    pub fn new(
        store: &'a Shared,
        all: &'a [(Line, Version)],
        progress: &'a Progress,
    ) -> Reading<'a> {
        Reading {
            store,
            all,
            page_size: store.limits().page_size,
            progress,
            next: AtomicUsize::new(0),
            pages: AtomicU64::new(0),
            fault: Mutex::new(None),
        }
    }

    /// Reads all of them, and gives how many pages that were.
    pub fn run(self) -> Result<u64, String> {
        self.progress.goes_on("versions read", self.all.len());
        let threads = thread::available_parallelism().map_or(1, |n| n.get());
        thread::scope(|scope| {
            for _ in 0..threads {
                scope.spawn(|| self.read_some());
            }
        });
        let fault = self.fault.into_inner();
        match fault.unwrap_or_else(PoisonError::into_inner) {
            None => Ok(self.pages.into_inner()),
            Some((_, words)) => Err(words),
        }
    }

    /// Reads versions until none is left, or one has a fault.
    fn read_some(&self) {
        let mut buffer = vec![0; PAGES_AT_A_TIME * self.page_size as usize];
        loop {
            let at = self.next.fetch_add(1, Relaxed);
            let (line, version) = match self.all.get(at) {
                Some(next) => *next,
                None => return,
            };
            match self.read(line, version, &mut buffer) {
                Ok(pages) => self.pages.fetch_add(pages, Relaxed),
                Err(words) => {
                    return self.found(at, format!("line {line}, version {version}{words}"))
                }
            };
            self.progress.has_done_one();
        }
    }

    /// A fault at a version: nobody goes on past it, and of several the first counts.
    fn found(&self, at: usize, words: String) {
        self.next.store(self.all.len(), Relaxed);
        let mut fault = self.fault.lock().unwrap_or_else(PoisonError::into_inner);
        if fault.as_ref().map_or(true, |(first, _)| at < *first) {
            *fault = Some((at, words));
        }
    }

    /// Reads a version whole, and gives how many pages it has.
    fn read(&self, line: Line, version: Version, buffer: &mut [u8]) -> Result<u64, String> {
        let size = self.store.size(line, version);
        let size = size.map_err(|error| format!(": SIZE: {error}"))?;
        let step = buffer.len() as u64;
        let mut from = 0;
        while from < size {
            let length = step.min(size - from) as usize;
            self.read_some_pages(line, version, ByteOffset(from), &mut buffer[..length])?;
            from += step;
        }
        Ok(size / self.page_size)
    }

    /// Reads some pages of a version.
    fn read_some_pages(
        &self,
        line: Line,
        version: Version,
        from: ByteOffset,
        buffer: &mut [u8],
    ) -> Result<(), String> {
        // the proved READ: `read` is made of VIEWs, with which it is compared
        let length = buffer.len() as u64;
        let read = self.store.read_front(line, version, from, length, buffer);
        read.map_err(|error| format!(", from byte {from} on: READ: {error}"))?;
        let pages = (from.0 / self.page_size..).map(PageIndex);
        for (page, bytes) in pages.zip(buffer.chunks(self.page_size as usize)) {
            let checked = self.check_page(line, version, page, bytes);
            checked.map_err(|words| format!(", page {page}: {words}"))?;
        }
        Ok(())
    }

    /// A page as READ gave it: VIEW gives the same, and so does the version of its stamp.
    fn check_page(
        &self,
        line: Line,
        version: Version,
        page: PageIndex,
        bytes: &[u8],
    ) -> Result<(), String> {
        let is_same = |version| {
            let view = self
                .store
                .with_view(line, version, page, |view| view == bytes);
            view.map_err(|error| format!("VIEW: {error}"))
        };
        if !is_same(version)? {
            return Err("READ and VIEW give different bytes".into());
        }
        let stamp = self.store.stamp(line, version, page);
        let stamp = stamp.map_err(|error| format!("STAMP: {error}"))?;
        if stamp > version || stamp == Version(0) {
            return Err(format!("the stamp is version {stamp}"));
        }
        if stamp < version && !is_same(stamp)? {
            return Err(format!(
                "the stamp is version {stamp}, in which it has other bytes"
            ));
        }
        Ok(())
    }
}

#[cfg(test)]
mod tests {
    use super::*;
    use pit_host::{Limits, Storage, Store};

    #[test]
    fn versions_are_read_and_the_first_fault_is_told() {
        let live = Line(0);
        let shared = Shared::new(Store::format(Limits::new(16, 40, 200, 20)).unwrap());
        for fill in 1..=20 {
            let pages: [&[u8]; 2] = [&[fill; 16], &[1; 16]];
            shared.update(live, PageIndex(0), &pages).unwrap();
        }
        let all: Vec<_> = (1..=20).map(|version| (live, Version(version))).collect();
        let progress = &Progress::new("reading");
        assert_eq!(Reading::new(&shared, &all, progress).run(), Ok(40));

        // the nodes of all versions but the first two, three each
        let (state, windows, mut areas) = shared.to_store().into_parts();
        areas.parts_mut().nodes[12..].fill(u32::MAX);
        let damaged = Shared::new(Store::resume(state, windows, areas));
        let fault = Reading::new(&damaged, &all, progress).run().unwrap_err();
        let words = "line 0, version 3, from byte 0 on: READ: refused: the areas are damaged";
        assert!(fault.starts_with(words), "{fault}");
        let beyond = [(live, Version(21))];
        let fault = Reading::new(&damaged, &beyond, progress).run().unwrap_err();
        assert!(
            fault.starts_with("line 0, version 21: SIZE: refused"),
            "{fault}"
        );
    }
}
