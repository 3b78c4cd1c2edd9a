//! The memory that a version's bookkeeping takes: all that is kept for it, without the bytes of its own pages.

use crate::contenders::arc_table::ArcTable;
use crate::contenders::ours::Ours;
use crate::contenders::Contender;
use crate::measures::heap;
use crate::workload::{Shape, Source};

/// Updates measured, on top of those that stand.
const COUNT: usize = 64;

/// Bytes a version, for updates of `pages` pages: in this repository's store, and in the `Arc` table.
pub fn per_version(shape: Shape, pages: usize) -> (f64, f64) {
    let source = Source::new(shape.page_size);
    let standing = shape.standing();
    let updates = shape.random_updates(4, COUNT, pages);

    let mut ours = Ours::new(&shape);
    ours.updates(&standing, &source);
    let before = ours.bookkeeping();
    ours.updates(&updates, &source);
    let our_bytes = ours.bookkeeping() - before;

    let mut table = ArcTable::new(&shape);
    table.updates(&standing, &source);
    let kept = heap::bytes_kept(|| table.updates(&updates, &source)) as usize;
    let table_bytes = kept - COUNT * pages * shape.page_size;

    (
        our_bytes as f64 / COUNT as f64,
        table_bytes as f64 / COUNT as f64,
    )
}
