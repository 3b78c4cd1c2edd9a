//! The tables of what is on a disk: waits beside a save, synced updates, and recovery.

use super::{shown, shown_ratio};
use crate::measures::latency::{Longest, Saved, BESIDE};
use crate::measures::recovery;
use crate::measures::synced::{self, What, NAMES, OURS, THREADS};
use crate::measures::timing::median;
use crate::numbers::with_commas;
use std::time::Duration;

/// A sort of call: the median and the greatest of its longest times, in milliseconds; and the lines above these rows.
pub fn line_of_latencies(longest: &Longest) -> String {
    let mut line = format!("{:<21}", longest.call);
    for times in &longest.beside {
        let times: Vec<f64> = times.iter().map(milliseconds).collect();
        let most = times.iter().copied().fold(0.0, f64::max);
        line += &format!("{:>10.3}{most:>10.3}", median(times));
    }
    line
}

pub fn heading_of_latencies() -> String {
    let beside = BESIDE.map(|beside| format!("{beside:>20}")).concat();
    let columns = BESIDE.map(|_| format!("{:>10}{:>10}", "median", "most"));
    let columns = columns.concat();
    format!("{:<21}{beside}\n{:<21}{columns}", "beside", "call")
}

pub fn line_of_save(what: &str, saved: Saved) -> String {
    let (time, bytes) = (
        shown(milliseconds(&saved.took)),
        with_commas(saved.bytes as usize),
    );
    format!("{what:<61}{time:>10} ms{bytes:>15} bytes")
}

pub fn milliseconds(time: &Duration) -> f64 {
    time.as_secs_f64() * 1e3
}

/// A row of synced updates: microseconds an update, and ours as a multiple of LMDB's; and the line above these rows.
pub fn line_of_synced(row: &synced::Row) -> String {
    let name = match row.what {
        What::One(1) => "update of 1 page".into(),
        What::One(pages) => format!("update of {pages} pages"),
        What::Many => format!("1 page, {THREADS} threads"),
    };
    let mut line = format!("{name:<21}");
    for seconds in row.seconds {
        line += &format!("{:>13}", shown(seconds * 1e6));
    }
    line += "  ";
    for ours in 0..OURS {
        line += &format!("{:>13}", shown_ratio(row.ratio(ours)));
    }
    line
}

/// The same, as updates a second of all threads.
pub fn line_of_rates(row: &synced::Row) -> String {
    let mut line = format!("{:<21}", "the same, a second");
    for seconds in row.seconds {
        line += &format!("{:>13}", shown(1.0 / seconds));
    }
    line
}

pub fn heading_of_synced() -> String {
    let column = |name: &&str| format!("{name:>13}");
    let names: String = NAMES.iter().map(column).collect();
    let ratios: String = NAMES[..OURS].iter().map(column).collect();
    format!(
        "{:<21}{:>78}  {:>39}\n{:<21}{names}  {ratios}",
        "", "microseconds an update", "as a multiple of LMDB", "what"
    )
}

/// A row of recovery, and the line above these rows.
pub fn line_of_recovery(row: &recovery::Row) -> String {
    format!(
        "{:<21}{:>10}{:>10}{:>15}{:>15}",
        with_commas(row.updates),
        row.pages,
        with_commas(row.entries as usize),
        with_commas(row.bytes as usize),
        shown(row.seconds * 1e3),
    )
}

pub fn heading_of_recovery() -> String {
    let columns = ("updates", "pages", "entries", "journal bytes", "ms to open");
    let (updates, pages, entries, bytes, time) = columns;
    format!("{updates:<21}{pages:>10}{entries:>10}{bytes:>15}{time:>15}")
}
