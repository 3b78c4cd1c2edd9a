//! One trial of threads that read, and of one that may write beside them.

use crate::contenders::shared::{Sharing, Views};
use crate::measures::threads::{Setting, Writer, PAGES_A_VERSION, TRIAL, UPDATES_A_SECOND};
use crate::workload::{Shape, Source, Update};
use std::ops::AddAssign;
use std::sync::atomic::{AtomicBool, Ordering::Relaxed};
use std::sync::Barrier;
use std::thread;
use std::time::{Duration, Instant};

/// Views and updates, and the time that they took.
#[derive(Clone, Copy, Default)]
pub struct Counts {
    pub views: usize,
    pub updates: usize,
    pub seconds: f64,
}

impl AddAssign for Counts {
    fn add_assign(&mut self, more: Counts) {
        self.views += more.views;
        self.updates += more.updates;
        self.seconds += more.seconds;
    }
}

/// What is read and written in every trial.
pub struct Workload {
    pub shape: Shape,
    pub source: Source,
    pub updates: Vec<Update>,
}

impl Workload {
    /// Readers on threads of their own, and the writer, or whoever waits for the time to pass, on this one.
    pub fn run(&self, store: &dyn Sharing, setting: Setting) -> Counts {
        let stopwatch = &Stopwatch::new(setting.readers);
        thread::scope(|threads| {
            let reading = |seed| {
                let pages = self.shape.random_pages(seed, 512 * PAGES_A_VERSION);
                threads.spawn(move || stopwatch.count(store.reader(), &pages))
            };
            let reading: Vec<_> = (0..setting.readers as u64)
                .map(|k| reading(6 + k))
                .collect();
            let mut updates = 0;
            let seconds = stopwatch.time(|begin| match setting.writer {
                Writer::None => thread::sleep(TRIAL),
                Writer::Paced => updates = self.paced(store, begin),
                Writer::FlatOut => updates = self.flat_out(store),
            });
            let views = |reader: thread::ScopedJoinHandle<'_, usize>| {
                reader.join().expect("the thread ends well")
            };
            Counts {
                views: reading.into_iter().map(views).sum(),
                updates,
                seconds,
            }
        })
    }

    /// Makes each update as soon as it is due, until the trial is over; gives how many.
    fn paced(&self, store: &dyn Sharing, begin: Instant) -> usize {
        let second = Duration::from_secs(1);
        let wait_until = |due: Duration| {
            if let Some(early) = due.checked_sub(begin.elapsed()) {
                thread::sleep(early);
            }
        };
        let most = TRIAL.as_millis() as usize * UPDATES_A_SECOND as usize / 1_000;
        for k in 0..most {
            wait_until(second * k as u32 / UPDATES_A_SECOND);
            self.update(store, k);
        }
        wait_until(TRIAL);
        most
    }

    /// Makes all updates, each as soon as the last is made; gives how many.
    fn flat_out(&self, store: &dyn Sharing) -> usize {
        (0..self.updates.len()).for_each(|k| self.update(store, k));
        self.updates.len()
    }

    fn update(&self, store: &dyn Sharing, k: usize) {
        let Update { first, pages } = self.updates[k];
        store.update(first, self.source.bytes(k, pages));
    }
}

/// Tells readers when the time runs in which their views count.
struct Stopwatch {
    start: Barrier,
    runs: AtomicBool,
    is_over: AtomicBool,
}

impl Stopwatch {
    fn new(readers: usize) -> Stopwatch {
        Stopwatch {
            start: Barrier::new(readers + 1),
            runs: AtomicBool::new(false),
            is_over: AtomicBool::new(false),
        }
    }

    /// Counts the views of one reader while the time runs. It reads before that, so that all it needs is at hand.
    fn count(&self, mut views: Views<'_>, pages: &[usize]) -> usize {
        let mut chunks = pages.chunks_exact(PAGES_A_VERSION).cycle();
        let mut view = || {
            chunks.next().map_or(0, |pages| {
                views(pages);
                pages.len()
            })
        };
        view();
        self.start.wait();
        while !self.runs.load(Relaxed) {
            view();
        }
        let mut count = 0;
        while !self.is_over.load(Relaxed) {
            count += view();
        }
        count
    }

    /// The seconds that this takes, in which views count.
    fn time(&self, piece: impl FnOnce(Instant)) -> f64 {
        self.start.wait();
        let begin = Instant::now();
        self.runs.store(true, Relaxed);
        piece(begin);
        let seconds = begin.elapsed().as_secs_f64();
        self.is_over.store(true, Relaxed);
        seconds
    }
}
