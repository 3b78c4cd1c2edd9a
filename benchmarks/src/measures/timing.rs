//! One shape of blob, measured: all contenders made alike, checked, and timed in rounds that take turns.

use crate::contenders::arc_table::ArcTable;
use crate::contenders::in_work::{self, InWork};
use crate::contenders::lmdb_pages::LmdbPages;
use crate::contenders::memcpy::Memcpy;
use crate::contenders::on_lines::OnLines;
use crate::contenders::ours::Ours;
use crate::contenders::Contender;
use crate::workload::{Shape, Source, Update};
use std::time::Instant;

/// The contenders, in the table's order.
pub const CONTENDERS: usize = 4;
pub const OURS: usize = 0;
pub const MEMCPY: usize = 1;
pub const ARC: usize = 2;
pub const LMDB: usize = 3;

/// Nanoseconds a call, for each contender.
pub type Times = [f64; CONTENDERS];

/// The same for this repository's store on one line, and with 16 lines whose updates interleave: reads on one of them, and
/// on all by the page's number.
pub type LineTimes = [f64; 3];

/// The one of 16 lines that is read.
const READ_LINE: usize = 7;

/// A round of reads or views is so many calls, after some that are not timed. They are timed in pieces short enough
/// that few are interrupted by other work of the machine; the median passes over those.
const READS: usize = 8_192;
const READ_PIECE: usize = 1_024;
const WARM_READS: usize = 2_048;

/// A round of updates is at most so many, the first of them not timed.
pub const BATCH: usize = WARM_UPDATES + TIMED;
const WARM_UPDATES: usize = 8;
const TIMED: usize = 64;

pub const ROUNDS: usize = 41;

/// Some contenders, holding the same blob.
pub struct Benchmark<const N: usize> {
    shape: Shape,
    source: Source,
    /// How many updates of a round are timed.
    timed: usize,
    contenders: [Box<dyn Contender>; N],
}

impl Benchmark<CONTENDERS> {
    pub fn new(shape: Shape) -> Benchmark<CONTENDERS> {
        let mut benchmark = Benchmark {
            shape,
            source: Source::new(shape.page_size),
            timed: TIMED,
            contenders: [
                Box::new(Ours::new(&shape)),
                Box::new(Memcpy::new(&shape)),
                Box::new(ArcTable::new(&shape)),
                Box::new(LmdbPages::new(&shape)),
            ],
        };
        let standing = shape.standing();
        for contender in &mut benchmark.contenders {
            contender.updates(&standing, &benchmark.source);
            contender.settle();
        }
        benchmark.check_standing(&standing);
        benchmark
    }
}

impl Benchmark<3> {
    /// This repository's store on one line, and with 16.
    pub fn of_lines(shape: Shape) -> Benchmark<3> {
        let source = Source::new(shape.page_size);
        let mut one = Ours::new(&shape);
        one.updates(&shape.standing(), &source);
        one.settle();
        let on_one = OnLines::new(&shape, &source, Some(READ_LINE));
        let on_all = OnLines::new(&shape, &source, None);
        Benchmark {
            shape,
            source,
            timed: TIMED,
            contenders: [Box::new(one), Box::new(on_one), Box::new(on_all)],
        }
    }
}

impl Benchmark<1> {
    /// This repository's store with tickets in work.
    pub fn in_work(shape: Shape) -> Benchmark<1> {
        let source = Source::new(shape.page_size);
        let in_work = InWork::new(&shape, &source);
        Benchmark {
            shape,
            source,
            timed: in_work::TIMED,
            contenders: [Box::new(in_work)],
        }
    }
}

impl<const N: usize> Benchmark<N> {
    /// READ of random pages of the newest version.
    pub fn reads(&mut self) -> [f64; N] {
        let pages = self.shape.random_pages(3, READS);
        let (version, mut to) = (self.shape.updates, vec![0; self.shape.page_size]);
        rounds(&mut self.contenders, |contender, _, times| {
            contender.before_reads();
            contender.reads(version, &pages[..WARM_READS], &mut to);
            for piece in pages.chunks_exact(READ_PIECE) {
                let reads = || contender.reads(version, piece, &mut to);
                times.push(time(piece.len(), reads));
            }
        })
    }

    /// READ of `pages` pages of the newest version that follow each other, at random places. A round reads as many pages as one of READ of
    /// single pages does.
    pub fn long_reads(&mut self, pages: usize) -> [f64; N] {
        let runs = self.shape.random_updates(3, READS / pages, pages);
        let (version, length) = (self.shape.updates, pages * self.shape.page_size);
        let mut to = vec![0; length];
        rounds(&mut self.contenders, |contender, round, times| {
            contender.before_reads();
            if round == 0 {
                check_run(contender, version, runs[0], length);
            }
            contender.long_reads(version, &runs[..WARM_READS / pages], &mut to);
            for piece in runs.chunks_exact(READ_PIECE / pages) {
                let reads = || contender.long_reads(version, piece, &mut to);
                times.push(time(piece.len(), reads));
            }
        })
    }

    /// VIEW of random pages of the newest version.
    pub fn views(&mut self) -> [f64; N] {
        let pages = self.shape.random_pages(3, READS);
        let version = self.shape.updates;
        rounds(&mut self.contenders, |contender, _, times| {
            contender.before_reads();
            contender.views(version, &pages[..WARM_READS]);
            for piece in pages.chunks_exact(READ_PIECE) {
                let views = || contender.views(version, piece);
                times.push(time(piece.len(), views));
            }
        })
    }

    /// Whole updates of `pages` pages at random places, on top of the updates that stand.
    pub fn updates(&mut self, pages: usize) -> [f64; N] {
        let (shape, source) = (self.shape, &self.source);
        let batch = WARM_UPDATES + self.timed;
        let version = shape.updates + batch;
        let piece = match pages {
            1 => 32,
            8 => 16,
            _ => 8,
        };
        rounds(&mut self.contenders, |contender, round, times| {
            let updates = shape.random_updates(4 + round as u64, batch, pages);
            let (warm, timed) = updates.split_at(WARM_UPDATES);
            contender.before_updates();
            contender.updates(warm, source);
            for piece in timed.chunks_exact(piece) {
                let updates = || contender.updates(piece, source);
                times.push(time(piece.len(), updates));
            }
            contender.before_reads();
            if contender.shows_all() {
                let last = &timed[timed.len() - piece..];
                Pages::after(last, source).check(contender, version);
            }
        })
    }

    /// Every contender gives the right bytes of every page, read and viewed: of the newest version, and of the one in
    /// the middle where versions are kept.
    fn check_standing(&mut self, standing: &[Update]) {
        let newest = standing.len();
        for version in [(newest + 1) / 2, newest] {
            let right = Pages::after(&standing[..version], &self.source);
            for contender in &mut self.contenders {
                contender.before_reads();
                if version == newest || contender.keeps_versions() {
                    right.check(&**contender, version);
                }
            }
        }
    }
}

/// A run of pages has the bytes of its pages.
fn check_run(contender: &dyn Contender, version: usize, run: Update, length: usize) {
    let mut to = vec![0; length];
    contender.read_run(version, run, &mut to);
    let pages = run.first..run.first + run.pages;
    let views: Vec<&[u8]> = pages.map(|page| contender.view(version, page)).collect();
    assert!(to == views.concat(), "READ of {run:?}");
}

/// The median of each contender's times. In each round every contender has its turn, and another is first.
fn rounds<const N: usize>(
    contenders: &mut [Box<dyn Contender>; N],
    mut turn: impl FnMut(&mut dyn Contender, usize, &mut Vec<f64>),
) -> [f64; N] {
    let mut times = [(); N].map(|()| Vec::new());
    for round in 0..ROUNDS {
        for place in 0..N {
            let at = (round + place) % N;
            turn(&mut *contenders[at], round, &mut times[at]);
        }
    }
    times.map(median)
}

/// Nanoseconds a call of a piece of so many calls.
pub fn time(calls: usize, piece: impl FnOnce()) -> f64 {
    let begin = Instant::now();
    piece();
    begin.elapsed().as_secs_f64() * 1e9 / calls as f64
}

pub fn median(mut times: Vec<f64>) -> f64 {
    times.sort_by(f64::total_cmp);
    times[times.len() / 2]
}

/// What some updates leave in the pages that they cover.
struct Pages<'a> {
    page_size: usize,
    pages: Vec<Option<&'a [u8]>>,
}

impl<'a> Pages<'a> {
    fn after(updates: &[Update], source: &'a Source) -> Pages<'a> {
        let page_size = source.page_size();
        let mut pages = Vec::new();
        for (k, update) in updates.iter().enumerate() {
            let end = update.first + update.pages;
            pages.resize(pages.len().max(end), None);
            let bytes = source.bytes(k, update.pages).chunks_exact(page_size);
            for (page, bytes) in pages[update.first..end].iter_mut().zip(bytes) {
                *page = Some(bytes);
            }
        }
        Pages { page_size, pages }
    }

    fn check(&self, contender: &dyn Contender, version: usize) {
        let mut to = vec![0; self.page_size];
        for (page, bytes) in self.pages.iter().enumerate() {
            if let Some(bytes) = bytes {
                assert_eq!(&contender.view(version, page), bytes, "VIEW of page {page}");
                to.fill(0);
                contender.read(version, page, &mut to);
                assert_eq!(&to, bytes, "READ of page {page}");
            }
        }
    }
}
