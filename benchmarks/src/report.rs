//! What is printed and recorded: text above the table, the tables, the targets, and the plot.

mod about;
mod plot;
mod rows;
mod svg;
mod table;
mod targets;

use crate::measures::latency::{self, Latencies};
use crate::measures::timing::LineTimes;
use crate::measures::{recovery, stamps, synced, threads};
use crate::workload::{Shape, TARGET_SHAPE};
use rows::UPDATES;
use std::path::{Path, PathBuf};
use std::{fs, io};
use table::{disk, Row, What};

/// What has been printed, and the rows in it.
#[derive(Default)]
pub struct Report {
    text: String,
    rows: Vec<Row>,
}

impl Report {
    fn say(&mut self, line: &str) {
        println!("{line}");
        self.text += line;
        self.text.push('\n');
    }

    pub fn run(&mut self, disk: &Path) {
        self.say(&about::text(disk));
        self.say(&table::heading());
        for page_size in [4_096, 256, 16] {
            let mut rows: Vec<Row> = rows::shapes(page_size)
                .into_iter()
                .flat_map(rows::times)
                .collect();
            if page_size == TARGET_SHAPE.page_size {
                rows.extend(UPDATES.into_iter().flat_map(rows::times_in_work));
            }
            // together what is to be compared: a thing measured, by blob and number of updates
            rows.sort_by_key(|row| (row.what, row.shape.blob, row.shape.updates));
            self.rows(rows);
        }
        self.rows(rows::memory());
        let on_lines = self.on_lines();
        self.stamps();
        let by_threads = self.threads();
        let latencies = self.latencies(disk);
        self.synced(disk);
        self.recovery(disk);
        self.say("\nTargets, in a blob of 4,096 pages of 4,096 bytes with so many updates:");
        let mut lines = targets::lines(&self.rows, &on_lines);
        lines.extend(targets::of_threads(&by_threads));
        lines.extend(targets::of_latencies(&latencies));
        lines.iter().for_each(|line| self.say(line));
    }

    fn on_lines(&mut self) -> Vec<(What, Shape, LineTimes)> {
        self.say("\nLines: this store with one line, and with 16 whose updates interleave:");
        self.say(&table::heading_of_lines());
        let on_lines: Vec<_> = UPDATES.into_iter().flat_map(rows::times_of_lines).collect();
        for (what, shape, times) in &on_lines {
            self.say(&table::line_of_lines(*what, *shape, *times));
        }
        on_lines
    }

    fn stamps(&mut self) {
        self.say(
            "\nStamps: STAMP of a page that so many of the updates since have resent unchanged:",
        );
        self.say(&table::heading_of_stamps());
        for page_size in [4_096, 256] {
            eprintln!("pit-bench: measuring stamps, in pages of {page_size} bytes");
            for setting in stamps::settings(page_size) {
                self.say(&table::line_of_stamps(setting, setting.time()));
            }
        }
    }

    fn threads(&mut self) -> Vec<threads::Row> {
        eprintln!("pit-bench: measuring {}, by threads", TARGET_SHAPE);
        self.say("\nThreads: views of all readers; above 1, ours gives more:");
        self.say(&table::threads::heading());
        let rows = threads::rows(TARGET_SHAPE);
        rows.iter()
            .for_each(|row| self.say(&table::threads::line(row)));
        rows
    }

    fn latencies(&mut self, disk: &Path) -> Latencies {
        eprintln!("pit-bench: measuring waits beside a save");
        self.say("\nWaits: the longest that one call took beside a save of the largest store, in milliseconds:");
        self.say(&disk::heading_of_latencies());
        let latencies = latency::measure(disk);
        for longest in &latencies.calls {
            self.say(&disk::line_of_latencies(longest));
        }
        self.say(&disk::line_of_save(
            "save of the largest store, full",
            latencies.full,
        ));
        let few = format!(
            "save of one with the same limits and {} updates",
            latency::FEW
        );
        self.say(&disk::line_of_save(&few, latencies.few));
        latencies
    }

    fn synced(&mut self, disk: &Path) {
        eprintln!("pit-bench: measuring {}, synced to a disk", TARGET_SHAPE);
        self.say(
            "\nSynced: an update that is on a disk when it returns; below 1, ours takes less:",
        );
        self.say(&disk::heading_of_synced());
        for row in synced::rows(disk) {
            self.say(&disk::line_of_synced(&row));
            if row.what == synced::What::Many {
                self.say(&disk::line_of_rates(&row));
            }
        }
    }

    fn recovery(&mut self, disk: &Path) {
        eprintln!("pit-bench: measuring recovery");
        self.say(
            "\nRecovery: to open a folder, with so many updates of so many pages in its journal:",
        );
        self.say(&disk::heading_of_recovery());
        for row in recovery::rows(disk) {
            self.say(&disk::line_of_recovery(&row));
        }
    }

    /// Prints and keeps rows, an empty line between one thing measured and the next.
    fn rows(&mut self, rows: Vec<Row>) {
        let mut last = None;
        for row in rows {
            if last != Some(row.what) {
                self.say("");
            }
            last = Some(row.what);
            self.say(&row.line());
            self.rows.push(row);
        }
    }

    pub fn record(&self, folder: PathBuf) -> io::Result<()> {
        fs::write(folder.join("performance.txt"), &self.text)?;
        fs::write(folder.join("performance.svg"), plot::svg(&self.rows))
    }
}
