//! Random runs on a shared store, beside a store that makes the same calls alone: both must answer the same.

use crate::random::Random;
use crate::support::call::{make, make_on, Answer, Call};
use crate::support::draw::{draw, Mix, Shown, CALLS};
use pit_host::{Error, Limits, Line, LineVersion, Record, Shared, Store, Ticket, Version, Windows};

/// A page's length in bytes.
pub const PAGE: usize = 16;

/// More whole updates, and more lines.
const MIX: Mix = Mix {
    update: 20,
    lines: 3,
    windows: 3,
    assign: 12,
    ..CALLS
};

/// A shared store, and one that makes the same calls alone and has no less room.
pub struct Pair {
    pub shared: Shared,
    pub alone: Store,
    pub random: Random,
    /// An update has mostly up to so many pages.
    pub most: u64,
}

/// An update in work, by its number in the store that is alone.
#[derive(Clone, Copy, Debug)]
pub struct InWork {
    pub ticket: Ticket,
    pub pages: u64,
    pub put: u64,
    pub version: Option<(Line, Version)>,
    /// Its nodes that are left, where it has a version.
    pub left: Option<u64>,
}

impl Pair {
    pub fn new(random: Random, limits: Limits) -> Pair {
        Pair::with_room(random, limits, limits)
    }

    /// The store that is alone has these other limits.
    pub fn with_room(random: Random, limits: Limits, alone: Limits) -> Pair {
        Pair {
            shared: Shared::new(Store::format(limits).expect("limits in range")),
            alone: Store::format(alone).expect("limits in range"),
            random,
            most: 4,
        }
    }

    /// Makes so many random calls, or fewer where there is no more room.
    pub fn run(&mut self, calls: u64) {
        for _ in 0..calls {
            if self.act() == Err(Full) && self.random.one_in(2) {
                return;
            }
        }
    }

    /// A random call on both. The last pages of an update are mostly put before it gets its version, and of its nodes some are woven.
    pub fn act(&mut self) -> Result<(), Full> {
        let call = self.draw();
        match call {
            Call::Write(_, ticket, _) | Call::Append(_, ticket) if !self.random.one_in(8) => {
                self.put_rest(ticket);
                self.make(&call)
            }
            Call::Weave(_) => {
                for _ in 0..self.random.pick(&[1, 2, 9, 200]) {
                    self.make(&call)?;
                }
                Ok(())
            }
            _ => self.make(&call),
        }
    }

    fn draw(&mut self) -> Call {
        let mix = Mix {
            most: self.most,
            ..MIX
        };
        draw(&mut self.random, &Shown::of(&self.alone), &mix)
    }

    fn put_rest(&mut self, ticket: Ticket) {
        let record = self.record(ticket).unwrap_or_default();
        for i in (0..record.n).filter(|i| record.put >> i & 1 == 0) {
            let page = vec![1 + self.random.below(3) as u8; PAGE];
            let put = self.make(&Call::Put(ticket, i, page));
            put.expect("PUT takes no room");
        }
    }

    /// Makes a call on both: the answers are the same. Where the shared one alone is full, nothing is done there.
    fn make(&mut self, call: &Call) -> Result<(), Full> {
        if call
            .version()
            .map_or(false, |version| self.is_gone(version))
        {
            return Ok(());
        }
        let answer = make_on(&self.shared, call);
        let answer = answer.map_err(|failure| failure.error().expect("a refusal"));
        let full = [Error::RegisterFull, Error::PagesFull, Error::NodesFull];
        let is_full = answer.as_ref().err().map_or(false, |e| full.contains(e));
        if is_full && self.shared.limits() != self.alone.limits() {
            return Err(Full);
        }
        let due = make(&mut self.alone, call);
        assert_eq!(answer.map(comparable), due.map(comparable), "{call:?}");
        if is_full {
            Err(Full)
        } else {
            Ok(())
        }
    }

    /// Whether a version was not rebuilt, and is only known alone.
    fn is_gone(&self, (line, version): (Line, Version)) -> bool {
        self.shared.size(line, version).is_err() && self.alone.size(line, version).is_ok()
    }

    // What is drawn.

    /// A line, most often the first; now and then one that has not begun.
    pub fn line(&mut self) -> Line {
        let begun = self.alone.state().begun;
        Line(match self.random.below(24) {
            0 => begun + self.random.below(20),
            1..=12 => self.random.below(begun),
            _ => 0,
        })
    }

    /// A version of a line, or one that is not yet published.
    pub fn version(&mut self, line: Line) -> Version {
        let recent = self.alone.recent(line).map_or(0, |recent| recent.0);
        let after = self.random.below(12) / 10;
        Version(self.random.below(recent + 1 + after))
    }

    fn record(&self, ticket: Ticket) -> Option<Record> {
        let at = usize::try_from(ticket.0.checked_sub(1)?).ok()?;
        self.alone.areas().register().get(at).copied()
    }

    /// The updates in work: those without a version, and those whose version is not published.
    pub fn in_work(&self) -> Vec<InWork> {
        let state = self.alone.state();
        let tickets = (1..=state.tickets).map(Ticket);
        let work = tickets.filter_map(|ticket| {
            let record = self.record(ticket)?;
            let update = self.record(Ticket(record.update));
            let name = update.map(|update| LineVersion(update.name));
            let published = name.map(|name| state.line(name.line()).published >= name.version().0);
            (published != Some(true)).then(|| InWork {
                ticket,
                pages: record.n,
                put: record.put.count_ones().into(),
                version: name.map(|name| (name.line(), name.version())),
                left: update.map(|update| update.count - update.woven),
            })
        });
        work.collect()
    }

    /// The open tickets are those that the register of the store alone has: begun, and not woven whole.
    pub fn same_open_tickets(&self) {
        let open = self.shared.open_tickets().into_iter();
        let open = open.map(|o| (o.ticket, o.pages, o.put, o.version, o.nodes_left));
        let mut due = self.in_work();
        due.retain(|work| work.left != Some(0));
        let due = due.into_iter();
        let due = due.map(|w| (w.ticket, w.pages, w.put, w.version, w.left.unwrap_or(0)));
        assert_eq!(open.collect::<Vec<_>>(), due.collect::<Vec<_>>());
    }

    /// The windows are the same.
    pub fn same_windows(&self) {
        let windows: Windows = self.shared.windows();
        assert_eq!(windows, self.alone.windows());
    }
}

/// There is no more room in the shared store.
#[derive(Debug, PartialEq)]
pub struct Full;

/// The numbers in a node are not those of a store that was rebuilt.
fn comparable(mut answer: Answer) -> Answer {
    if let Answer::Node(node) = &mut answer {
        (node.version, node.left, node.right) = (LineVersion(0), 0, 0);
    }
    answer
}

/// The bytes of a version.
pub fn bytes_of(store: &Store, line: Line, version: Version) -> Result<Vec<u8>, Error> {
    let mut bytes = vec![0; store.size(line, version)? as usize];
    store.read(line, version, pit_host::ByteOffset(0), &mut bytes)?;
    Ok(bytes)
}

/// Every line that has begun, with each of its published versions.
pub fn published(store: &Store) -> Vec<(Line, Version)> {
    let lines = (0..store.state().begun).map(Line);
    let versions = lines.flat_map(|line| {
        let recent = store.recent(line).expect("a line that has begun");
        (0..=recent.0).map(move |version| (line, Version(version)))
    });
    versions.collect()
}
