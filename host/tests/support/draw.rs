//! Calls that are drawn: which one, by the weights of a mix, and with what, by what a store shows. So equal stores get equal calls of
//! equal random numbers. One argument in some is wrong.

use super::call::{Call, Update, WEEK};
use super::random::Random;
use pit_host::{
    ByteOffset, Handle, Limits, Line, Log, Minute, PageIndex, Record, Storage, Store, Ticket,
    Version,
};

/// How often each call is drawn beside the others, and with what.
#[derive(Clone, Copy, Debug)]
pub struct Mix {
    pub begin: u64,
    pub put: u64,
    pub assign: u64,
    pub weave: u64,
    pub publish: u64,
    /// New lines.
    pub lines: u64,
    pub windows: u64,
    /// The calls that change nothing.
    pub reads: u64,
    pub update: u64,
    pub finish: u64,
    /// Syncs and checkpoints; where there are any, stores are rebuilt too, most often when there is little room left.
    pub files: u64,
    /// An update has mostly up to so many pages.
    pub most: u64,
    /// One argument in so many is wrong.
    pub wrong: u64,
}

/// Single calls and whole updates, as callers make them.
pub const CALLS: Mix = Mix {
    begin: 9,
    put: 21,
    assign: 6,
    weave: 12,
    publish: 9,
    lines: 1,
    windows: 2,
    reads: 0,
    update: 9,
    finish: 6,
    files: 0,
    most: 4,
    wrong: 40,
};

/// These and all that is done with files.
pub const WITH_FILES: Mix = Mix { files: 3, ..CALLS };

/// The calls of a store of one's own alone, of which each is made by itself; those that change nothing too.
pub const SINGLE: Mix = Mix {
    update: 0,
    finish: 0,
    reads: 9,
    lines: 2,
    ..CALLS
};

/// Nothing but whole updates.
pub const UPDATES: Mix = Mix {
    begin: 0,
    put: 0,
    assign: 0,
    weave: 0,
    publish: 0,
    lines: 0,
    windows: 0,
    finish: 0,
    wrong: 12,
    ..CALLS
};

/// What a store shows to whoever draws calls on it.
pub struct Shown {
    pub page_size: usize,
    /// The last published version of each line that has begun, and how many pages an update may begin at.
    pub lines: Vec<(u64, u64)>,
    pub open: Vec<Open>,
    pub limits: Limits,
    /// Whether there is little room left.
    pub is_low: bool,
}

/// A ticket in work.
#[derive(Clone, Copy, Debug)]
pub struct Open {
    pub ticket: Ticket,
    pub pages: u64,
    /// The first of its pages that is not put, mostly; none where all are.
    pub next: Option<u64>,
    /// Its nodes that are left, where it has a version.
    pub left: Option<u64>,
}

impl Open {
    /// A ticket as a register has it; none where it is woven whole, or is none.
    pub fn of(register: &[Record], ticket: Ticket) -> Option<Open> {
        let record = |number: u64| register.get((number as usize).wrapping_sub(1)).copied();
        let begun = record(ticket.0)?;
        let left = record(begun.update).map(|update| update.count - update.woven);
        let next = u64::from(begun.put.trailing_ones());
        (left != Some(0)).then_some(Open {
            ticket,
            pages: begun.n,
            next: (next < begun.n).then_some(next),
            left,
        })
    }
}

impl Shown {
    pub fn of<A: Storage>(store: &Store<A>) -> Shown {
        let (state, register) = (store.state(), store.areas().parts().register);
        let line = |line: u64| {
            let line = state.line(Line(line));
            (line.published, line.blob)
        };
        let tickets = (1..=state.tickets).map(Ticket);
        Shown {
            page_size: state.size as usize,
            lines: (0..state.begun.min(16)).map(line).collect(),
            open: tickets.filter_map(|t| Open::of(register, t)).collect(),
            limits: store.limits(),
            is_low: false,
        }
    }

    /// By the numbers that a handle's callers have.
    pub fn of_handle<L: Log>(store: &Handle<L>) -> Shown {
        let (limits, room) = (store.limits(), store.room());
        let line = |line: u64| {
            let recent = store.recent(Line(line)).ok()?;
            let size = store.size(Line(line), recent).ok()?;
            Some((recent.0, size / limits.page_size))
        };
        let open = store.open_tickets().into_iter().map(|open| Open {
            ticket: open.ticket,
            pages: open.pages,
            next: (open.put < open.pages).then_some(open.put),
            left: open.version.map(|_| open.nodes_left),
        });
        Shown {
            page_size: limits.page_size as usize,
            lines: (0..16).map_while(line).collect(),
            open: open.collect(),
            limits,
            is_low: room.updates < 4 || room.pages < 12 || room.nodes < 40,
        }
    }
}

/// Draws a call on a store.
pub fn draw(random: &mut Random, shown: &Shown, mix: &Mix) -> Call {
    Drawing { random, shown, mix }.call()
}

struct Drawing<'a> {
    random: &'a mut Random,
    shown: &'a Shown,
    mix: &'a Mix,
}

/// Draws a call of one kind.
type Draw<D> = fn(&mut D) -> Call;

impl Drawing<'_> {
    fn call(&mut self) -> Call {
        let mix = self.mix;
        let rebuilds = if self.shown.is_low { 3 } else { 150 };
        if mix.files > 0 && self.random.one_in(rebuilds) {
            return self.rebuild();
        }
        let kinds: [(u64, Draw<Self>); 11] = [
            (mix.begin, |d| Call::Begin(d.page_count())),
            (mix.put, Self::put),
            (mix.assign, Self::assign),
            (mix.weave, Self::weave),
            (mix.publish, |d| Call::Publish(d.line(), d.minute())),
            (mix.lines, Self::branch),
            (mix.windows, |d| Call::SetWindows(d.list().into_bytes())),
            (mix.reads, Self::read),
            (mix.update, Self::update),
            (mix.finish, Self::finish),
            (mix.files, Self::keep),
        ];
        let mut at = self.random.below(kinds.iter().map(|kind| kind.0).sum());
        let drawn = kinds.into_iter().find(|(weight, _)| {
            let is_drawn = at < *weight;
            at = at.saturating_sub(*weight);
            is_drawn
        });
        drawn.expect("one of them").1(self)
    }

    // Arguments.

    fn is_wrong(&mut self) -> bool {
        self.random.one_in(self.mix.wrong)
    }

    /// A line that has begun, the first most often; else one that has not.
    fn line(&mut self) -> Line {
        let begun = self.shown.lines.len() as u64;
        Line(match self.random.below(2) {
            _ if self.is_wrong() => self.random.pick(&[begun, begun + 1, 15, 16, 17, u64::MAX]),
            0 => 0,
            _ => self.random.below(begun),
        })
    }

    /// What is known of a line; nothing of one that has not begun.
    fn of(&self, line: Line) -> (u64, u64) {
        let known = self.shown.lines.get(line.0 as usize);
        known.copied().unwrap_or_default()
    }

    /// A published version of a line; else the next.
    fn version(&mut self, line: Line) -> Version {
        let (published, _) = self.of(line);
        Version(match self.is_wrong() {
            true => published + 1,
            false => self.random.below(published + 1),
        })
    }

    fn minute(&mut self) -> Minute {
        Minute(match self.is_wrong() {
            true => WEEK + self.random.below(WEEK),
            false => self.random.below(WEEK),
        })
    }

    fn page_count(&mut self) -> u64 {
        match self.is_wrong() {
            true => self.random.pick(&[0, 64, 65, u64::MAX]),
            false => 1 + self.random.below(self.mix.most),
        }
    }

    /// A ticket in work that is wanted; now and then another, or none that there is.
    fn open(&mut self, wanted: impl Fn(&Open) -> bool) -> Option<Open> {
        let open = &self.shown.open;
        let fitting: Vec<Open> = open.iter().copied().filter(|open| wanted(open)).collect();
        let from = match self.random.one_in(12) || fitting.is_empty() {
            true => open,
            false => &fitting,
        };
        if from.is_empty() || self.is_wrong() {
            return None;
        }
        Some(self.random.pick(from))
    }

    fn ticket(&mut self, wanted: impl Fn(&Open) -> bool) -> Ticket {
        let open = self.open(wanted);
        open.map_or_else(
            || Ticket(self.random.pick(&[0, 1 << 40])),
            |open| open.ticket,
        )
    }

    /// So many pages; now and then one of them has too many bytes or too few.
    fn pages(&mut self, n: u64) -> Vec<Vec<u8>> {
        let mut pages: Vec<Vec<u8>> = (0..n).map(|_| self.page()).collect();
        if n > 0 && self.is_wrong() {
            let (at, size) = (self.random.below(n), self.shown.page_size);
            let length = self.random.pick(&[0, 1, size - 1, size + 1, 2 * size]);
            pages[at as usize].resize(length, 0);
        }
        pages
    }

    /// A page's bytes: half of the time one byte all over, of a few, so that pages are resent and changed back.
    fn page(&mut self) -> Vec<u8> {
        let size = self.shown.page_size;
        match self.random.below(2) {
            0 => vec![self.random.below(4) as u8; size],
            _ => self.random.bytes(size),
        }
    }

    /// A page that a version of the line has, or the one after it; else one past that.
    fn first(&mut self, line: Line) -> PageIndex {
        let (_, pages) = self.of(line);
        PageIndex(match self.is_wrong() {
            true => self.random.pick(&[pages + 1, 4_096, 4_097, u64::MAX]),
            false => self.random.below(pages + 1),
        })
    }

    /// The text of a list of windows: one or two of any length, now and then none; or one with equal ends.
    fn list(&mut self) -> String {
        let from = self.random.below(WEEK);
        let length = match self.is_wrong() {
            true => 0,
            false => 1 + self.random.pick(&[30, 400, 5_000]),
        };
        let to = (from + length) % WEEK;
        match self.random.below(8) {
            0 => String::new(),
            1..=4 => format!("{from},{to}\n"),
            _ => format!("{from},{to}\n1,2\n"),
        }
    }

    // Calls.

    fn put(&mut self) -> Call {
        let open = self.open(|open| open.next.is_some());
        let (ticket, next, pages) = open.map_or((Ticket(0), None, 1), |open| {
            (open.ticket, open.next, open.pages)
        });
        let i = match (self.random.below(3), next) {
            (1 | 2, Some(next)) => next,
            _ if self.is_wrong() => pages,
            _ => self.random.below(pages.max(1)),
        };
        let mut pages = self.pages(1);
        Call::Put(ticket, i, pages.remove(0))
    }

    fn assign(&mut self) -> Call {
        let ticket = self.ticket(|open| open.left.is_none() && open.next.is_none());
        let line = self.line();
        match self.random.below(3) {
            0 => Call::Append(line, ticket),
            _ => Call::Write(line, ticket, self.first(line)),
        }
    }

    fn weave(&mut self) -> Call {
        Call::Weave(self.ticket(|open| open.left.is_some()))
    }

    fn branch(&mut self) -> Call {
        let line = self.line();
        Call::Branch(line, self.version(line))
    }

    fn read(&mut self) -> Call {
        let line = self.line();
        let version = self.version(line);
        let page = PageIndex(self.random.below(self.of(line).1 + 2));
        match self.random.below(6) {
            0 => Call::Size(line, version),
            1 => Call::Recent(line),
            2 => Call::Stamp(line, version, page),
            3 => Call::View(line, version, page),
            _ => {
                let size = self.shown.page_size as u64;
                let offset = ByteOffset(page.0 * size / 2 + self.random.below(size));
                let len = self.random.below(3 * size);
                Call::Read(line, version, offset, len, len as usize)
            }
        }
    }

    fn update(&mut self) -> Call {
        let line = self.line();
        let n = self.page_count().min(65);
        let at = (!self.random.one_in(3)).then(|| self.first(line));
        let pages = self.pages(n);
        let minute = self.minute();
        Call::Update(Update {
            line,
            at,
            pages,
            minute,
        })
    }

    fn finish(&mut self) -> Call {
        Call::Finish(self.ticket(|open| open.left.is_some()), self.minute())
    }

    fn keep(&mut self) -> Call {
        match self.random.one_in(4) {
            true => Call::Checkpoint,
            false => Call::Sync,
        }
    }

    /// Into limits that are mostly somewhat larger.
    fn rebuild(&mut self) -> Call {
        let mut limits = self.shown.limits;
        let mut other = |now: u64, by: u64| now * (2 + self.random.below(4)) / 4 + by;
        limits.pages = other(limits.pages, 20).min(65_535);
        limits.nodes = other(limits.nodes, 80).min(131_072);
        limits.updates = other(limits.updates, 8).min(4_096);
        let kept = (0..self.random.below(3)).map(|_| {
            let line = self.line();
            (line, self.version(line))
        });
        let kept = kept.collect();
        Call::Rebuild(limits, kept, self.given_up())
    }

    /// Now and then some tickets that have no version; and one that has, or is none.
    fn given_up(&mut self) -> Vec<Ticket> {
        if !self.random.one_in(3) {
            return vec![];
        }
        let (random, open) = (&mut *self.random, self.shown.open.iter());
        let some = open.filter(|open| open.left.is_none() && random.one_in(2));
        let mut some: Vec<Ticket> = some.map(|open| open.ticket).collect();
        if self.random.one_in(10) {
            some.push(self.ticket(|open| open.left.is_some()));
        }
        some
    }
}
