//! The stores under test: what each of them does, and the loops that are timed.

pub mod arc_table;
pub mod durable;
pub mod in_work;
#[allow(unsafe_code)]
pub mod lmdb;
pub mod lmdb_pages;
pub mod memcpy;
pub mod on_lines;
pub mod ours;
pub mod shared;

use crate::black_box::black_box;
use crate::workload::{Source, Update};

/// A store under test. Versions are counted from 1, an update each.
///
/// The loops are default methods, so each is compiled for its contender, and no call in them goes through a table.
pub trait Contender {
    /// One whole update: stored, and readable when this returns.
    fn update(&mut self, first: usize, bytes: &[u8]);

    /// The bytes of a page of a version, where they lie. It must not touch them.
    fn view(&self, version: usize, page: usize) -> &[u8];

    /// A page of a version, copied into `to`, which is one page long.
    fn read(&self, version: usize, page: usize, to: &mut [u8]) {
        to.copy_from_slice(self.view(version, page));
    }

    /// So many pages of a version that follow each other, copied into `to`, which is as long as they are.
    fn read_run(&self, version: usize, run: Update, to: &mut [u8]) {
        let page_size = to.len() / run.pages;
        for (page, to) in (run.first..).zip(to.chunks_exact_mut(page_size)) {
            self.read(version, page, to);
        }
    }

    /// Whether older versions can still be read. Where not, the version asked for is passed over.
    fn keeps_versions(&self) -> bool;

    /// Whether what is read shows every update. On several lines each shows its own.
    fn shows_all(&self) -> bool {
        true
    }

    /// The updates made so far are those that stand. Not timed.
    fn settle(&mut self) {}

    /// Called before the loop of updates, not timed: back to the updates that stand, where older versions are kept.
    fn before_updates(&mut self) {}

    /// Called before the loops of reads and views, not timed.
    fn before_reads(&mut self) {}

    /// Timed: READ of each page.
    fn reads(&self, version: usize, pages: &[usize], to: &mut [u8]) {
        for &page in pages {
            self.read(version, page, to);
            black_box(&mut *to);
        }
    }

    /// Timed: READ of each run of pages.
    fn long_reads(&self, version: usize, runs: &[Update], to: &mut [u8]) {
        for &run in runs {
            self.read_run(version, run, to);
            black_box(&mut *to);
        }
    }

    /// Timed: VIEW of each page.
    fn views(&self, version: usize, pages: &[usize]) {
        for &page in pages {
            black_box(self.view(version, page));
        }
    }

    /// Timed: each update, whole. The k-th takes the source's k-th bytes.
    fn updates(&mut self, updates: &[Update], source: &Source) {
        for (k, update) in updates.iter().enumerate() {
            self.update(update.first, black_box(source.bytes(k, update.pages)));
        }
    }
}
