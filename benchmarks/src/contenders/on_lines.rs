//! The store of this repository with 16 lines whose updates interleave.

use crate::contenders::Contender;
use crate::measures::timing::BATCH;
use crate::workload::{Shape, Source, MOST};
use pit_host::{ByteOffset, Limits, Line, Minute, PageIndex, Store, Version};

const LINES: usize = 16;

/// The blob is filled on line 0. Then the other lines begin, and further updates go to all lines in turn. Reads go to one
/// of the lines, or to all by the page's number, each to the line's newest version.
#[derive(Clone)]
pub struct OnLines {
    page_size: u64,
    store: Store,
    newest: [Version; LINES],
    turn: usize,
    /// The line that is read; none: all of them.
    reads: Option<usize>,
    /// The same with just the updates that stand.
    standing: Option<Box<OnLines>>,
}

const ACCEPTED: &str = "the store accepts the call";

impl OnLines {
    /// With the updates that stand, and room for one batch of the longest updates more.
    pub fn new(shape: &Shape, source: &Source, reads: Option<usize>) -> OnLines {
        let standing = shape.standing();
        let pages: usize = standing.iter().map(|update| update.pages).sum();
        let room = (pages + BATCH * MOST) as u64;
        let limits = Limits::new(shape.page_size as u64, room, 131_072, 4_096);
        let mut on_lines = OnLines {
            page_size: limits.page_size,
            store: Store::format(limits).expect("the limits are accepted"),
            newest: [Version(0); LINES],
            turn: 0,
            reads,
            standing: None,
        };
        for (k, update) in standing.iter().enumerate() {
            let filled = on_lines.newest[0];
            if filled.0 * MOST as u64 >= shape.blob as u64 && on_lines.newest[1] == Version(0) {
                on_lines.begin_lines(filled);
            }
            on_lines.update(update.first, source.bytes(k, update.pages));
        }
        on_lines.settle();
        on_lines
    }

    /// The line on which a page is read.
    fn line_of(&self, page: usize) -> usize {
        self.reads.unwrap_or(page % LINES)
    }

    fn begin_lines(&mut self, filled: Version) {
        self.newest = [filled; LINES];
        for line in 1..LINES as u64 {
            let begun = self.store.branch(Line(0), filled);
            assert_eq!(begun, Ok(Line(line)));
        }
    }
}

impl Contender for OnLines {
    fn update(&mut self, first: usize, bytes: &[u8]) {
        let pages = bytes.chunks_exact(self.page_size as usize);
        let ticket = self.store.begin(pages.len() as u64).expect(ACCEPTED);
        for (i, page) in pages.enumerate() {
            self.store.put(ticket, i as u64, page).expect(ACCEPTED);
        }
        let at = if self.newest[1] == Version(0) {
            0
        } else {
            self.turn
        };
        let (line, first) = (Line(at as u64), PageIndex(first as u64));
        self.store.write(line, ticket, first).expect(ACCEPTED);
        while self.store.weave(ticket).expect(ACCEPTED).rest > 0 {}
        let published = self.store.publish(line, Minute(0)).expect(ACCEPTED);
        self.newest[at] = published.version().expect("the version is due");
        self.turn = (self.turn + 1) % LINES;
    }

    fn view(&self, _version: usize, page: usize) -> &[u8] {
        let at = self.line_of(page);
        let (line, page) = (Line(at as u64), PageIndex(page as u64));
        let view = self.store.view(line, self.newest[at], page);
        view.expect(ACCEPTED)
    }

    fn read(&self, _version: usize, page: usize, to: &mut [u8]) {
        let at = self.line_of(page);
        let (line, version) = (Line(at as u64), self.newest[at]);
        let offset = ByteOffset(page as u64 * self.page_size);
        let read = self.store.read(line, version, offset, to);
        read.expect(ACCEPTED);
    }

    fn keeps_versions(&self) -> bool {
        true
    }

    fn shows_all(&self) -> bool {
        false
    }

    fn settle(&mut self) {
        self.standing = Some(Box::new(self.clone()));
    }

    fn before_updates(&mut self) {
        let standing = self.standing.take().expect("the store is settled");
        *self = OnLines::clone(&standing);
        self.standing = Some(standing);
    }
}
