//! What is measured: a blob's shape, the updates that made it, and the bytes they bring.

use crate::numbers::with_commas;
use crate::random::Random;
use std::fmt;

/// The most pages an update has.
pub const MOST: usize = 64;

/// A blob of `blob` pages of `page_size` bytes, made by `updates` updates.
#[derive(Clone, Copy, Debug, PartialEq, Eq)]
pub struct Shape {
    pub page_size: usize,
    pub blob: usize,
    pub updates: usize,
}

/// Where the targets are set: 4,096 pages of 4,096 bytes, 100 updates standing; some with more.
pub const TARGET_SHAPE: Shape = Shape {
    page_size: 4_096,
    blob: 4_096,
    updates: 100,
};

/// An update of `pages` pages from page `first` on.
#[derive(Clone, Copy, Debug)]
pub struct Update {
    pub first: usize,
    pub pages: usize,
}

impl fmt::Display for Shape {
    fn fmt(&self, f: &mut fmt::Formatter<'_>) -> fmt::Result {
        let (blob, bytes) = (with_commas(self.blob), with_commas(self.page_size));
        let updates = with_commas(self.updates);
        write!(f, "{blob} pages of {bytes} bytes, {updates} updates")
    }
}

impl Shape {
    /// The updates that stand: appends of up to 64 pages until the blob is full, then writes of one random page.
    pub fn standing(&self) -> Vec<Update> {
        let mut random = Random::seeded(1);
        let mut size = 0;
        let mut updates = Vec::with_capacity(self.updates);
        while updates.len() < self.updates {
            let pages = MOST.min(self.blob - size);
            updates.push(match pages {
                0 => Update {
                    first: random.below(self.blob),
                    pages: 1,
                },
                _ => Update { first: size, pages },
            });
            size += pages;
        }
        assert_eq!(size, self.blob, "too few updates to fill the blob");
        updates
    }

    /// `count` updates of `pages` pages, each at a random place inside the blob.
    pub fn random_updates(&self, seed: u64, count: usize, pages: usize) -> Vec<Update> {
        let mut random = Random::seeded(seed);
        let mut update = || Update {
            first: random.below(self.blob - pages + 1),
            pages,
        };
        (0..count).map(|_| update()).collect()
    }

    /// `count` random pages of the blob.
    pub fn random_pages(&self, seed: u64, count: usize) -> Vec<usize> {
        let mut random = Random::seeded(seed);
        (0..count).map(|_| random.below(self.blob)).collect()
    }
}

/// The bytes that updates bring: 128 pages of noise, of which the k-th update takes a run that begins at the
/// (k mod 64)-th.
pub struct Source {
    page_size: usize,
    bytes: Vec<u8>,
}

impl Source {
    pub fn new(page_size: usize) -> Source {
        Source {
            page_size,
            bytes: Random::seeded(2).bytes(2 * MOST * page_size),
        }
    }

    pub fn page_size(&self) -> usize {
        self.page_size
    }

    /// The bytes of the k-th update, of `pages` pages.
    pub fn bytes(&self, k: usize, pages: usize) -> &[u8] {
        let begin = k % MOST * self.page_size;
        &self.bytes[begin..begin + pages * self.page_size]
    }
}
