//! Calls whose instructions `benchmarks/count` counts: `pit-count UPDATES LINES`, where LINES is `1`, `16`, `chain`, `windows`, or
//! `resent` and a number. It makes a store of 4,096 pages of 4,096 bytes with so many updates standing, and then in `counted` so many calls of each kind,
//! which it prints.
//!
//! Of 16 lines 15 begin when line 0 has its pages, and the other updates go to all of them in turn. In a chain each line begins
//! from the one before it, and readers read the versions that are shared by all, which are farthest from their line there. With
//! windows there is one line, and a list of 32 windows, none of which holds, is set so many times before the counted updates.
//! With `resent` there is one line too, on which so many of the updates after the filling, spread evenly, have resent one page
//! unchanged; with `resent 0` the last update has written it anew. Of that page STAMP is counted, and nothing else.

#[allow(unsafe_code)]
mod black_box;
#[allow(dead_code)]
mod numbers;
#[allow(dead_code)]
mod random;
#[allow(dead_code)]
mod workload;

use black_box::black_box;
use pit_host::{ByteOffset, Limits, Line, LineState, Minute, PageIndex, Store, Ticket, Version};
use std::env;
use std::process::ExitCode;
use workload::{Shape, Source, Update, MOST};

const PAGE_SIZE: usize = 4_096;
const BLOB: usize = 4_096;

/// How many of each kind are counted: reads, updates of one page, branches, lists of windows, and stamps.
const READS: usize = 512;
const UPDATES: usize = 32;
const BRANCHES: usize = 15;
const LISTS: usize = 16;
const STAMPS: usize = 4;

/// The page that is resent, of the blob's last append.
const PAGE: usize = 4_090;

const ACCEPTED: &str = "the store accepts the call";

/// How the lines lie.
#[derive(Clone, Copy, PartialEq)]
enum Layout {
    One,
    Star,
    Chain,
    Windows,
    Resent(usize),
}

fn main() -> ExitCode {
    let arguments: Vec<String> = env::args().skip(1).collect();
    let updates = arguments.first().and_then(|number| number.parse().ok());
    let layout = match arguments.get(1).map(String::as_str) {
        Some("1") => Some(Layout::One),
        Some("16") => Some(Layout::Star),
        Some("chain") => Some(Layout::Chain),
        Some("windows") => Some(Layout::Windows),
        Some("resent") => {
            let number = arguments.get(2).and_then(|number| number.parse().ok());
            number.map(Layout::Resent)
        }
        _ => None,
    };
    match (updates, layout) {
        (Some(updates @ 64..=4_000), Some(layout)) => {
            Scene::new(updates, layout).counted();
            println!(
                "reads {READS} updates {UPDATES} branches {BRANCHES} lists {LISTS} stamps {STAMPS}"
            );
            ExitCode::SUCCESS
        }
        _ => {
            eprintln!("usage: pit-count UPDATES (1|16|chain|windows|resent NUMBER), of 64 to 4,000 updates");
            ExitCode::from(2)
        }
    }
}

/// A store with its updates standing, and what the counted calls ask for.
struct Scene {
    store: Store,
    /// The lines that the updates go to in turn.
    lines: u64,
    layout: Layout,
    shape: Shape,
    source: Source,
}

impl Scene {
    fn new(updates: usize, layout: Layout) -> Scene {
        let shape = Shape {
            page_size: PAGE_SIZE,
            blob: BLOB,
            updates,
        };
        let standing = shape.standing();
        let pages: usize = standing.iter().map(|update| update.pages).sum();
        let room = (pages + UPDATES) as u64;
        let limits = Limits::new(PAGE_SIZE as u64, room, 131_072, 4_096);
        let mut scene = Scene {
            store: Store::format(limits).expect(ACCEPTED),
            lines: 1,
            layout,
            shape,
            source: Source::new(PAGE_SIZE),
        };
        let (fill, others) = standing.split_at(BLOB / MOST);
        scene.updates(fill);
        scene.begin_lines();
        match layout {
            Layout::Resent(number) => scene.resend(others.len(), number),
            _ => scene.updates(others),
        }
        scene
    }

    fn begin_lines(&mut self) {
        if let Layout::One | Layout::Windows | Layout::Resent(_) = self.layout {
            return;
        }
        let filled = self.store.recent(Line(0)).expect(ACCEPTED);
        while self.lines < 16 {
            let from = match self.layout {
                Layout::Chain => self.lines - 1,
                _ => 0,
            };
            self.store.branch(Line(from), filled).expect(ACCEPTED);
            self.lines += 1;
        }
    }

    /// Updates on all lines in turn, each whole.
    fn updates(&mut self, updates: &[Update]) {
        for (k, update) in updates.iter().enumerate() {
            let line = Line(k as u64 % self.lines);
            let ticket = self.store.begin(update.pages as u64).expect(ACCEPTED);
            self.put_all(ticket, k, update.pages);
            self.finish(line, ticket, update.first);
        }
    }

    /// An update from its version to its publication.
    fn finish(&mut self, line: Line, ticket: Ticket, first: usize) {
        let first = PageIndex(first as u64);
        self.store.write(line, ticket, first).expect(ACCEPTED);
        while self.store.weave(ticket).expect(ACCEPTED).rest > 0 {}
        let published = self.store.publish(line, Minute(0)).expect(ACCEPTED);
        assert!(published.version().is_some());
    }

    /// So many updates of one page, of which so many resend the page as it stands; where none does, the last writes it anew.
    fn resend(&mut self, updates: usize, number: usize) {
        let filled = self.store.recent(Line(0)).expect(ACCEPTED);
        let page = self.store.view(Line(0), filled, PageIndex(PAGE as u64));
        let mut page = page.expect(ACCEPTED).to_vec();
        let mut others = self.shape.random_pages(5, 2 * updates).into_iter();
        for k in 0..updates {
            let anew = number == 0 && k + 1 == updates;
            page[0] ^= u8::from(anew);
            let ticket = self.store.begin(1).expect(ACCEPTED);
            if anew || (k + 1) * number / updates > k * number / updates {
                self.store.put(ticket, 0, &page).expect(ACCEPTED);
                self.finish(Line(0), ticket, PAGE);
            } else {
                let other = others.find(|other| *other != PAGE);
                self.put_all(ticket, k, 1);
                self.finish(
                    Line(0),
                    ticket,
                    other.expect("as many as updates, and more"),
                );
            }
        }
    }

    fn put_all(&mut self, ticket: Ticket, k: usize, pages: usize) {
        let bytes = self.source.bytes(k, pages).chunks_exact(PAGE_SIZE);
        for (i, page) in bytes.enumerate() {
            self.store.put(ticket, i as u64, page).expect(ACCEPTED);
        }
    }

    /// The version that is read of a line: the newest; in a chain, the one that all share.
    fn version(&self, line: Line) -> Version {
        match self.layout {
            Layout::Chain => Version((BLOB / MOST) as u64),
            _ => self.store.recent(line).expect(ACCEPTED),
        }
    }

    /// What is counted, and nothing else.
    #[inline(never)]
    fn counted(&mut self) {
        if let Layout::Resent(number) = self.layout {
            return self.stamp_all(number);
        }
        self.read_all();
        self.branch_all();
        self.set_windows();
        let updates = self.shape.random_updates(4, UPDATES, 1);
        self.updates(&updates);
    }

    /// VIEW and READ of one page, on all lines in turn; in a chain, on the last.
    fn read_all(&self) {
        let mut to = vec![0; PAGE_SIZE];
        for (k, page) in (0..).zip(self.shape.random_pages(3, READS)) {
            let line = match self.layout {
                Layout::Chain => Line(self.lines - 1),
                _ => Line(k % self.lines),
            };
            let (version, page) = (self.version(line), page as u64);
            let view = self.store.view(line, version, PageIndex(page));
            black_box(view.expect(ACCEPTED));
            let offset = ByteOffset(page * PAGE_SIZE as u64);
            // the proved call: `read` is made of VIEWs
            let length = to.len() as u64;
            let read = self
                .store
                .read_front(line, version, offset, length, &mut to);
            read.expect(ACCEPTED);
            black_box(&mut to);
        }
    }

    /// STAMP of the page that was resent, in the newest version.
    fn stamp_all(&self, number: usize) {
        let recent = self.store.recent(Line(0)).expect(ACCEPTED);
        let due = match number {
            0 => recent,
            _ => Version((BLOB / MOST) as u64),
        };
        for _ in 0..STAMPS {
            let stamp = self.store.stamp(Line(0), recent, PageIndex(PAGE as u64));
            assert_eq!(black_box(stamp), Ok(due));
        }
    }

    /// BRANCH from each line's newest version. There is room for one line more, each time: the last is taken away again.
    fn branch_all(&mut self) {
        let room = self.lines.min(15);
        let (mut state, windows, areas) = self.store.clone().into_parts();
        state.begun = room;
        state.set_line(Line(15), LineState::default());
        let mut store = Store::resume(state, windows, areas);
        for k in 0..BRANCHES as u64 {
            let line = Line(k % room);
            let version = self.version(line);
            assert_eq!(store.branch(line, version), Ok(Line(room)));
            let (mut state, windows, areas) = store.into_parts();
            state.begun = room;
            state.set_line(Line(room), LineState::default());
            store = Store::resume(state, windows, areas);
        }
    }

    /// SETWINDOWS of the longest text: 32 lines, whose numbers have five digits.
    fn set_windows(&mut self) {
        if self.layout != Layout::Windows {
            return;
        }
        let windows = (10_000..10_064).step_by(2);
        let lines = windows.map(|from| format!("{from},{}\n", from + 1));
        let text: String = lines.collect();
        for _ in 0..LISTS {
            self.store.set_windows(&text).expect(ACCEPTED);
        }
    }
}
