//! Benchmarks of the pit model store: one table, and with `--record FOLDER` the same in FOLDER/performance.txt and a
//! plot in FOLDER/performance.svg. docs/PERFORMANCE.md says how to read them.

#![deny(unsafe_code)]

#[allow(unsafe_code)]
mod black_box;
mod contenders;
mod measures;
mod numbers;
mod random;
mod report;
mod workload;

use measures::heap;
use report::Report;
use std::env;
use std::path::{Path, PathBuf};
use std::process::ExitCode;

#[global_allocator]
static HEAP: heap::Counting = heap::Counting;

fn main() -> ExitCode {
    let arguments: Vec<_> = env::args_os().skip(1).collect();
    let (disk, folder) = match &arguments[..] {
        [disk] => (disk, None),
        [disk, word, folder] if word == "--record" => (disk, Some(PathBuf::from(folder))),
        _ => {
            eprintln!("usage: pit-bench FOLDER-ON-A-DISK [--record FOLDER]");
            return ExitCode::from(2);
        }
    };
    let mut report = Report::default();
    report.run(Path::new(disk));
    match folder.map_or(Ok(()), |folder| report.record(folder)) {
        Ok(()) => ExitCode::SUCCESS,
        Err(error) => {
            eprintln!("pit-bench: not recorded: {error}");
            ExitCode::FAILURE
        }
    }
}
