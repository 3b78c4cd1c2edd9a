//! The targets, each against its row of the table.

use crate::measures::latency::Latencies;
use crate::measures::threads;
use crate::measures::timing::{LineTimes, ARC, LMDB, MEMCPY};
use crate::numbers::with_commas;
use crate::report::table::disk::milliseconds;
use crate::report::table::{shown_ratio, threads as thread_table, Row, What};
use crate::workload::{Shape, TARGET_SHAPE};

/// What may, with so many updates standing, be at most how many times what.
const TARGETS: [(What, usize, usize, f64); 10] = [
    (What::Read, 100, MEMCPY, 1.95),
    (What::Read, 100, LMDB, 1.0),
    (What::Read, 4_000, LMDB, 1.05),
    (What::View, 100, LMDB, 0.7),
    (What::View, 4_000, LMDB, 0.85),
    (What::Update(1), 100, LMDB, 0.85),
    (What::Update(1), 4_000, LMDB, 1.1),
    (What::Update(8), 100, LMDB, 0.65),
    (What::Update(64), 100, LMDB, 0.65),
    (What::Memory(1), 100, ARC, 0.05),
];

/// VIEW on one of 16 lines may be at most so many times VIEW in a store with one.
const VIEW_ON_LINES: f64 = 1.5;

/// No call may take longer than so many milliseconds while the largest store is saved.
const LATENCY: f64 = 5.0;

/// A line a target: what was asked, what was measured, and whether it was met.
pub fn lines(rows: &[Row], on_lines: &[(What, Shape, LineTimes)]) -> Vec<String> {
    let mut lines = Vec::new();
    for (what, updates, to, most) in TARGETS {
        let shape = Shape {
            updates,
            ..TARGET_SHAPE
        };
        let row = rows.iter().find(|r| r.what == what && r.shape == shape);
        let measured = row.and_then(|row| row.ratio(to));
        let measured = measured.expect("the targets' rows are in the table");
        let other = ["", "/ memcpy", "/ Arc", "/ LMDB"][to];
        lines.push(line(what, updates, other, most, measured));
    }
    for (what, shape, [one, on_one, _]) in on_lines {
        if *what == What::View {
            let measured = on_one / one;
            let (updates, other) = (shape.updates, "one of 16 lines");
            lines.push(line(*what, updates, other, VIEW_ON_LINES, measured));
        }
    }
    lines
}

fn line(what: What, updates: usize, other: &str, most: f64, measured: f64) -> String {
    let what = format!("{:<21}{:>7}", what.name(), with_commas(updates));
    of(&what, other, most, measured)
}

/// Readers by filled snapshots are not behind LMDB's.
pub fn of_threads(rows: &[threads::Row]) -> Vec<String> {
    let line = |(setting, rates): &threads::Row| {
        let measured = rates[threads::LMDB].views / rates[threads::FILLED].views;
        let what = format!("readers, writer: {}", thread_table::front(*setting));
        of(&what, "LMDB / filled", 1.0, measured)
    };
    rows.iter().map(line).collect()
}

/// No call waits for a save.
pub fn of_latencies(latencies: &Latencies) -> Vec<String> {
    let line = |longest: &crate::measures::latency::Longest| {
        let most = longest.beside_its_save().iter().map(milliseconds);
        of(
            longest.call,
            "ms, beside a save",
            LATENCY,
            most.fold(0.0, f64::max),
        )
    };
    latencies.calls.iter().map(line).collect()
}

fn of(what: &str, other: &str, most: f64, measured: f64) -> String {
    let met = if measured <= most { "met" } else { "missed" };
    let measured = shown_ratio(measured);
    format!("{what:<28}  {other:<19}at most {most:<6}{measured:>8}  {met}")
}
