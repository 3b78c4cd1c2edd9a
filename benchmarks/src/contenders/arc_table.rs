//! What a user would write: a table of all pages for each version, copied by each update, every page behind an `Arc`.

use crate::contenders::Contender;
use crate::workload::Shape;
use std::sync::Arc;

struct Table {
    pages: Vec<Arc<[u8]>>,
}

pub struct ArcTable {
    page_size: usize,
    /// Version k is the k-th; version 0 is empty.
    versions: Vec<Arc<Table>>,
    standing: usize,
}

impl ArcTable {
    pub fn new(shape: &Shape) -> ArcTable {
        // as many as the store of this repository has room for
        let mut versions = Vec::with_capacity(1 + 4_096);
        versions.push(Arc::new(Table { pages: Vec::new() }));
        ArcTable {
            page_size: shape.page_size,
            versions,
            standing: 0,
        }
    }
}

impl Contender for ArcTable {
    fn update(&mut self, first: usize, bytes: &[u8]) {
        let mut pages = self.versions[self.versions.len() - 1].pages.clone();
        for (i, page) in bytes.chunks_exact(self.page_size).enumerate() {
            match pages.get_mut(first + i) {
                Some(old) => *old = Arc::from(page),
                None => pages.push(Arc::from(page)),
            }
        }
        self.versions.push(Arc::new(Table { pages }));
    }

    fn view(&self, version: usize, page: usize) -> &[u8] {
        &self.versions[version].pages[page]
    }

    fn keeps_versions(&self) -> bool {
        true
    }

    fn settle(&mut self) {
        self.standing = self.versions.len();
    }

    fn before_updates(&mut self) {
        self.versions.truncate(self.standing);
    }
}
