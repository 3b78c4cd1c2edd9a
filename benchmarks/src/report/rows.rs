//! The rows of the table, measured.

use super::table::{Row, What};
use crate::measures::memory::per_version;
use crate::measures::timing::{Benchmark, LineTimes, Times, MEMCPY};
use crate::workload::{Shape, TARGET_SHAPE};

/// The numbers of updates in the targets' blob.
pub const UPDATES: [usize; 3] = [100, 1_000, 4_000];

/// The blobs that are timed. Ten updates of at most 64 pages make 640 pages, so all numbers of updates are measured
/// there, and all but ten in the largest blob.
pub fn shapes(page_size: usize) -> Vec<Shape> {
    let mut shapes = Vec::new();
    for (blob, numbers) in [
        (64, &[100][..]),
        (512, &[100]),
        (640, &[10, 100, 1_000, 4_000]),
        (4_096, &[100, 1_000, 4_000]),
    ] {
        for &updates in numbers {
            shapes.push(Shape {
                page_size,
                blob,
                updates,
            });
        }
    }
    shapes
}

/// Whether reads of several pages are measured: in the largest blob, with few updates and with many.
fn has_long_reads(shape: Shape) -> bool {
    shape.page_size >= 256 && shape.blob == TARGET_SHAPE.blob && shape.updates != 1_000
}

/// The rows of one blob's times.
pub fn times(shape: Shape) -> Vec<Row> {
    eprintln!("pit-bench: measuring {shape}");
    let mut benchmark = Benchmark::new(shape);
    let reads = benchmark.reads();
    let mut views = benchmark.views();
    views[MEMCPY] = reads[MEMCPY];
    let mut times = vec![(What::Read, reads), (What::View, views)];
    if has_long_reads(shape) {
        let mut row = |pages| (What::LongRead(pages), benchmark.long_reads(pages));
        times.extend([4, 16, 64].map(&mut row));
    }
    for pages in [1, 8, 64] {
        times.push((What::Update(pages), benchmark.updates(pages)));
    }
    let row = |(what, times): (What, Times)| Row {
        what,
        shape,
        figures: times.map(Some),
    };
    times.into_iter().map(row).collect()
}

/// The rows of updates beside tickets in work, in the targets' blob with so many updates published.
pub fn times_in_work(updates: usize) -> Vec<Row> {
    let shape = Shape {
        updates,
        ..TARGET_SHAPE
    };
    eprintln!("pit-bench: measuring {shape}, with tickets in work");
    let mut benchmark = Benchmark::in_work(shape);
    let row = |pages| {
        let [ours] = benchmark.updates(pages);
        Row {
            what: What::InWork(pages),
            shape,
            figures: [Some(ours), None, None, None],
        }
    };
    [1, 8, 64].map(row).into()
}

/// What is measured on one line and with 16, in the targets' blob with so many updates.
pub fn times_of_lines(updates: usize) -> Vec<(What, Shape, LineTimes)> {
    let shape = Shape {
        updates,
        ..TARGET_SHAPE
    };
    eprintln!("pit-bench: measuring {shape}, on 16 lines");
    let mut benchmark = Benchmark::of_lines(shape);
    vec![
        (What::Read, shape, benchmark.reads()),
        (What::View, shape, benchmark.views()),
        (What::Update(1), shape, benchmark.updates(1)),
    ]
}

/// The rows of memory, each with 100 updates standing.
pub fn memory() -> Vec<Row> {
    let mut rows = Vec::new();
    for pages in [1, 8, 64] {
        for (page_size, blob) in [
            (16, 4_096),
            (256, 4_096),
            (4_096, 4_096),
            (4_096, 512),
            (4_096, 64),
        ] {
            let shape = Shape {
                page_size,
                blob,
                updates: 100,
            };
            let (ours, arc) = per_version(shape, pages);
            rows.push(Row {
                what: What::Memory(pages),
                shape,
                figures: [Some(ours), None, Some(arc), None],
            });
        }
    }
    rows
}
