//! What is told of a look that takes long, on standard error.

use std::fs;
use std::io::{self, Write};
use std::sync::atomic::{AtomicUsize, Ordering::Relaxed};
use std::sync::{Arc, Condvar, Mutex, MutexGuard, PoisonError};
use std::thread::{self, JoinHandle};
use std::time::Duration;

/// How often it is told how far it is.
const TOLD_EVERY: Duration = Duration::from_secs(1);

/// Tells now and then what is being done, and how far it is, until it is dropped.
pub struct Progress {
    now: Arc<Now>,
    reporter: Option<JoinHandle<()>>,
}

/// What is being done, and nothing once it is over; so much of so much, where it is counted.
struct Now {
    what: Mutex<Option<&'static str>>,
    over: Condvar,
    done: AtomicUsize,
    all: AtomicUsize,
}

impl Progress {
    pub fn new(what: &'static str) -> Progress {
        let now = Arc::new(Now {
            what: Mutex::new(Some(what)),
            over: Condvar::new(),
            done: AtomicUsize::new(0),
            all: AtomicUsize::new(0),
        });
        let shown = Arc::clone(&now);
        let reporter = thread::Builder::new().spawn(move || shown.report());
        Progress {
            now,
            reporter: reporter.ok(), // without it nothing is told
        }
    }

    /// Goes on to something else, of which there is so much; 0 where it is not counted.
    pub fn goes_on(&self, what: &'static str, all: usize) {
        *self.now.what() = Some(what);
        self.now.done.store(0, Relaxed);
        self.now.all.store(all, Relaxed);
    }

    /// One more is done.
    pub fn has_done_one(&self) {
        self.now.done.fetch_add(1, Relaxed);
    }
}

impl Drop for Progress {
    fn drop(&mut self) {
        *self.now.what() = None;
        self.now.over.notify_all();
        if let Some(reporter) = self.reporter.take() {
            let _ = reporter.join();
        }
    }
}

impl Now {
    fn what(&self) -> MutexGuard<'_, Option<&'static str>> {
        self.what.lock().unwrap_or_else(PoisonError::into_inner)
    }

    /// The line that is told after a while; none where it is over before.
    fn line(&self) -> Option<String> {
        let waited = self
            .over
            .wait_timeout_while(self.what(), TOLD_EVERY, |what| what.is_some());
        let what = (*waited.unwrap_or_else(PoisonError::into_inner).0)?;
        Some(match self.all.load(Relaxed) {
            0 => format!("pit: {what}"),
            all => format!("pit: {what}: {} of {all}", self.done.load(Relaxed)),
        })
    }

    /// On a terminal in one line, which is cleared in the end.
    fn report(&self) {
        let (before, after) = match is_terminal() {
            true => ("\r\x1b[K", ""),
            false => ("", "\n"),
        };
        let (mut err, mut told) = (io::stderr(), false);
        while let Some(line) = self.line() {
            let _ = write!(err, "{before}{line}{after}");
            let _ = err.flush();
            told = true;
        }
        if told {
            let _ = write!(err, "{before}");
        }
    }
}

/// Whether standard error is a terminal.
fn is_terminal() -> bool {
    let name = fs::read_link("/proc/self/fd/2").unwrap_or_default();
    let name = name.to_string_lossy();
    name.starts_with("/dev/pts/") || name.starts_with("/dev/tty")
}
