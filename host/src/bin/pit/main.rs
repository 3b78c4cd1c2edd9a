//! `pit`: looks at the folder of a durable store, whoever has it open. It changes nothing.

#![deny(unsafe_code)]

mod dump;
mod info;
mod progress;
mod reading;
mod remake;
mod verify;
mod words;

use pit_host::Failure;
use std::env;
use std::io::{self, ErrorKind, Write};
use std::process::ExitCode;
use words::{Asked, HELP, USAGE};

/// What is wrong, in words.
type Fault = Box<dyn std::error::Error + Send + Sync>;

/// The words were wrong.
const MISUSED: u8 = 2;

fn main() -> ExitCode {
    let asked = match words::read(env::args_os().skip(1)) {
        Ok(asked) => asked,
        Err(why) => {
            report(&format!("pit: {why}\n{USAGE}"));
            return ExitCode::from(MISUSED);
        }
    };
    let (folder, answer) = match &asked {
        Asked::Help => return written(HELP.as_bytes()),
        Asked::Info(folder) => (folder, info::info(folder).map(String::into_bytes)),
        Asked::Dump(folder, page) => (folder, dump::dump(folder, page)),
        Asked::Verify(folder) => (folder, verify::verify(folder).map(String::into_bytes)),
    };
    match answer {
        Ok(bytes) => written(&bytes),
        Err(why) if has_path(&why) => {
            report(&format!("pit: {why}"));
            ExitCode::FAILURE
        }
        Err(why) => {
            report(&format!("pit: {}: {why}", folder.display()));
            ExitCode::FAILURE
        }
    }
}

/// Whether the words name a file of the folder, or the folder, by its path.
fn has_path(why: &Fault) -> bool {
    match why.downcast_ref() {
        Some(Failure::File(error)) => error.path().is_some(),
        _ => false,
    }
}

/// Writes an answer. One who has closed the pipe has read enough.
fn written(bytes: &[u8]) -> ExitCode {
    let mut out = io::stdout();
    match out.write_all(bytes).and_then(|()| out.flush()) {
        Err(e) if e.kind() != ErrorKind::BrokenPipe => {
            report(&format!("pit: standard output: {e}"));
            ExitCode::FAILURE
        }
        _ => ExitCode::SUCCESS,
    }
}

/// A line on standard error; where that is closed, nobody is to be told.
fn report(line: &str) {
    let _ = writeln!(io::stderr(), "{line}");
}
