//! A process with several writers and a reader: everything that each of them was told is there, and nothing that nobody wrote.

use super::child::{kill, say, start, KillPoint, Part};
use super::{kill_all, power, IN_A_FOLDER};
use crate::folder::Folder;
use crate::random::Random;
use crate::support::call::Begin;
use crate::support::script::options;
use pit_host::{
    Durable, Error, Failure, FileError, Limits, Line, LineVersion, Minute, Options, PageIndex,
    Record, Store, SyncAt, Ticket, Version,
};
use std::thread;

const PAGE_SIZE: usize = 16;
const WRITERS: u64 = 3;
/// A writer makes at most so many updates.
const UPDATES: u64 = 20;
/// An update has at most so many pages, and a line's blob.
const MOST: u64 = 3;
const BLOB: u64 = 40;

fn beginning(seed: u64) -> (Store, Options) {
    let limits = Limits::worst(
        PAGE_SIZE as u64,
        2 * BLOB,
        WRITERS * UPDATES * IN_A_FOLDER,
        MOST,
    );
    let store = Store::format(limits.unwrap()).unwrap();
    (store, options(&mut Random::new(seed)))
}

/// The bytes of a page: they say who wrote it, and for which place of the update.
fn page(writer: u64, update: u64, i: u64) -> [u8; PAGE_SIZE] {
    let mut bytes = [0x5a; PAGE_SIZE];
    let numbers = [writer, update, i].map(|number| (number as u32).to_le_bytes());
    bytes[..12].copy_from_slice(&numbers.concat());
    bytes
}

fn pages(writer: u64, update: u64, n: u64) -> Vec<[u8; PAGE_SIZE]> {
    (0..n).map(|i| page(writer, update, i)).collect()
}

// What the process says: each of these when the call has returned.

/// What one was told, as it can be found again in the store. A page's writer is counted over all processes.
#[derive(Clone, Copy, Debug, PartialEq)]
enum Fact {
    /// A ticket, with its pages.
    Begun(u64, u64),
    /// A page of a ticket: its place, writer and update.
    Put(u64, [u64; 3]),
    /// A ticket's line, version and first page.
    Assigned(u64, [u64; 3]),
    /// So many nodes of a ticket's.
    Woven(u64, u64),
    /// A line's version; also where it is a reader that has seen it.
    Published(u64, u64),
    /// A whole update: line, version and first page; the writer, update and pages.
    Whole([u64; 3], [u64; 3]),
}

impl Fact {
    fn numbers(self) -> Vec<u64> {
        match self {
            Fact::Begun(ticket, n) => vec![0, ticket, n],
            Fact::Put(ticket, by) => [&[1, ticket][..], &by].concat(),
            Fact::Assigned(ticket, to) => [&[2, ticket][..], &to].concat(),
            Fact::Woven(ticket, count) => vec![3, ticket, count],
            Fact::Published(line, version) => vec![4, line, version],
            Fact::Whole(to, by) => [&[5][..], &to, &by].concat(),
        }
    }

    fn of(numbers: &[u64]) -> Option<Fact> {
        Some(match *numbers {
            [0, ticket, n] => Fact::Begun(ticket, n),
            [1, ticket, i, writer, update] => Fact::Put(ticket, [i, writer, update]),
            [2, ticket, line, version, first] => Fact::Assigned(ticket, [line, version, first]),
            [3, ticket, count] => Fact::Woven(ticket, count),
            [4, line, version] => Fact::Published(line, version),
            [5, line, version, first, writer, update, n] => {
                Fact::Whole([line, version, first], [writer, update, n])
            }
            _ => return None,
        })
    }

    /// Whether a store has it.
    fn is_in(self, store: &Store) -> bool {
        let register = store.areas().register();
        let record = |number: u64| register.get(number.wrapping_sub(1) as usize).copied();
        let ticket = |number| record(number).unwrap_or_default();
        let update = |number| record(ticket(number).update).unwrap_or_default();
        let published = |line: u64| store.recent(Line(line)).unwrap_or_default().0;
        match self {
            Fact::Begun(number, n) => ticket(number).n == n,
            Fact::Put(number, [i, writer, of]) => {
                put_page(store, &ticket(number), i) == Some(&page(writer, of, i))
            }
            Fact::Assigned(number, [line, version, first]) => {
                let name = LineVersion::new(Line(line), Version(version));
                (update(number).name, update(number).f) == (name.0, first)
            }
            Fact::Woven(number, count) => update(number).woven >= count,
            Fact::Published(line, version) => published(line) >= version,
            Fact::Whole([line, version, first], [writer, of, n]) => {
                let name = LineVersion::new(Line(line), Version(version));
                let made = register.iter().find(|record| record.name == name.0);
                made.map_or(false, |made| {
                    let ticket = ticket(made.ticket);
                    let is_put = |i| put_page(store, &ticket, i) == Some(&page(writer, of, i));
                    made.f == first && ticket.n == n && (0..n).all(is_put)
                })
            }
        }
    }
}

/// The bytes of a ticket's page, if it is put.
fn put_page<'a>(store: &'a Store, ticket: &Record, i: u64) -> Option<&'a [u8]> {
    let is_put = i < ticket.n && ticket.put >> i & 1 == 1;
    let at = (ticket.number + i) as usize * PAGE_SIZE;
    is_put.then(|| &store.areas().pages()[at..at + PAGE_SIZE])
}

// The process that is killed.

/// The part of the process that is killed.
pub fn work(part: &Part<'_>) {
    let (store, options) = beginning(part.seed);
    let durable = match Durable::open(part.folder, options) {
        Err(Failure::File(FileError::NoStore)) => {
            Durable::create(part.folder, store, options).unwrap()
        }
        opened => opened.unwrap().0,
    };
    let durable = &durable;
    durable.set_clock(|| Minute(0));
    report(durable, Fact::Published(0, 0));
    if part.run % 2 == 0 {
        finish_all(durable);
    }
    if durable.recent(Line(1)) == Err(Error::NoSuchLine) {
        durable.line_from(Line(0), Version(0));
        report(durable, Fact::Published(1, 0));
    }
    thread::scope(|threads| {
        let writers: Vec<_> = (0..WRITERS)
            .map(|at| {
                let mut writer = Writer::new(durable, part, at);
                threads.spawn(move || (0..UPDATES).for_each(|update| writer.update(update)))
            })
            .collect();
        let mut seen = Version(0);
        while !writers.iter().all(|writer| writer.is_finished()) {
            seen = look(durable, seen);
        }
    });
}

/// What killed ones have left: later versions of its line wait for it.
fn finish_all(durable: &Durable) {
    for open in durable.open_tickets() {
        if let Some((line, version)) = open.version {
            assert_eq!(durable.finish(open.ticket).unwrap(), version);
            report(durable, Fact::Woven(open.ticket.0, open.nodes_left));
            let recent = durable.recent(line).unwrap();
            report(durable, Fact::Published(line.0, recent.0));
        }
    }
}

fn report(durable: &Durable, fact: Fact) {
    let (written, synced) = durable.entries();
    let numbers = [vec![written, synced], fact.numbers()].concat();
    let words: Vec<String> = numbers.iter().map(u64::to_string).collect();
    say(&words.join(" "));
}

/// A reader's look at line 0, reported where there is something new. Also waits a little, for that.
fn look(durable: &Durable, seen: Version) -> Version {
    let next = Version(seen.0 + 1);
    let waited = durable.wait_published_for(Line(0), next, std::time::Duration::from_millis(2));
    waited.unwrap();
    let recent = durable.recent(Line(0)).unwrap();
    if recent > seen {
        report(durable, Fact::Published(0, recent.0));
    }
    recent
}

struct Writer<'a> {
    durable: &'a Durable,
    random: Random,
    number: u64,
    line: Line,
}

impl<'a> Writer<'a> {
    fn new(durable: &'a Durable, part: &Part<'_>, at: u64) -> Writer<'a> {
        let number = part.run * WRITERS + at;
        Writer {
            durable,
            random: Random::new(part.seed.wrapping_mul(1_000).wrapping_add(number)),
            number,
            line: Line(u64::from(at == 2)),
        }
    }

    fn report(&self, fact: Fact) {
        report(self.durable, fact);
    }

    /// A page of the line's last published version, or the one after its end, where there is room.
    fn first(&mut self) -> PageIndex {
        let recent = self.durable.recent(self.line).unwrap();
        let size = self.durable.size(self.line, recent).unwrap();
        let pages = size / PAGE_SIZE as u64;
        PageIndex(self.random.below(pages.min(BLOB) + 1))
    }

    fn update(&mut self, update: u64) {
        let n = 1 + self.random.below(MOST);
        let first = self.first();
        if self.random.one_in(12) {
            self.durable.checkpoint().unwrap();
        }
        match self.random.below(3) {
            0 => self.whole(update, n, first),
            _ => self.by_calls(update, n, first),
        }
    }

    fn whole(&mut self, update: u64, n: u64, first: PageIndex) {
        let pages = pages(self.number, update, n);
        let pages: Vec<&[u8]> = pages.iter().map(|page| &page[..]).collect();
        let version = self.durable.update(self.line, first, &pages).unwrap();
        let to = [self.line.0, version.0, first.0];
        self.report(Fact::Whole(to, [self.number, update, n]));
    }

    fn by_calls(&mut self, update: u64, n: u64, first: PageIndex) {
        let (durable, line) = (self.durable, self.line);
        let ticket = durable.begin(n).unwrap();
        self.report(Fact::Begun(ticket.0, n));
        for i in 0..n {
            let bytes = page(self.number, update, i);
            durable.put(ticket, i, &bytes).unwrap();
            self.report(Fact::Put(ticket.0, [i, self.number, update]));
        }
        let assigned = durable.write(line, ticket, first).unwrap();
        let to = [line.0, assigned.version.0, first.0];
        self.report(Fact::Assigned(ticket.0, to));
        self.weave(ticket, assigned.nodes);
        while let Some(version) = durable.publish(line, Minute(0)).unwrap().version() {
            self.report(Fact::Published(line.0, version.0));
        }
    }

    /// Node by node, or what is left in one call.
    fn weave(&mut self, ticket: Ticket, nodes: u64) {
        for count in 1..=nodes {
            if self.random.one_in(6) {
                let version = self.durable.finish(ticket).unwrap();
                assert!(version > Version(0));
                return self.report(Fact::Woven(ticket.0, nodes));
            }
            self.durable.weave(ticket).unwrap();
            self.report(Fact::Woven(ticket.0, count));
        }
    }
}

// The process that kills.

/// A fact, and how many entries were written and synced when it was reported.
#[derive(Clone, Copy, Debug)]
struct Report {
    written: u64,
    synced: u64,
    fact: Fact,
}

fn report_of(words: &str) -> Option<Report> {
    let numbers: Result<Vec<u64>, _> = words.split(' ').map(str::parse).collect();
    match numbers.ok()?.as_slice() {
        [written, synced, fact @ ..] => Some(Report {
            written: *written,
            synced: *synced,
            fact: Fact::of(fact)?,
        }),
        _ => None,
    }
}

/// A folder, and all that was ever reported of it and may not be lost.
struct Site {
    seed: u64,
    folder: Folder,
    beside: Folder,
    options: Options,
    reports: Vec<Report>,
}

impl Site {
    fn new(seed: u64) -> Site {
        Site {
            seed,
            folder: Folder::new(&format!("kills-crowd-{seed}")),
            beside: Folder::in_memory(&format!("kills-crowd-beside-{seed}")),
            options: beginning(seed).1,
            reports: Vec::new(),
        }
    }

    /// Starts a process, and looks at what it has left; tells whether it was killed.
    fn kill_one(&mut self, run: u64, random: &mut Random) -> bool {
        let part = Part {
            name: "crowd",
            folder: &self.folder.0,
            seed: self.seed,
            run,
        };
        let (said, was_killed) = kill(start(&part, ""), KillPoint::draw(random, 200));
        let before = self.reports.len();
        self.reports
            .extend(said.iter().filter_map(|words| report_of(words)));
        let all = self
            .reports
            .iter()
            .map(|report| (report.written, report.synced));
        let (mut due, synced) = all.fold((0, 0), |a, b| (a.0.max(b.0), a.1.max(b.1)));
        let power = random.one_in(3) && self.reports.len() > before;
        if power {
            due = power::cut(&self.folder, synced, random);
        }
        if self.reports.is_empty() {
            return was_killed; // there may be no store yet
        }
        self.beside.set(&self.folder.files());
        let (found, _) = Durable::open(&self.beside.0, self.options).unwrap();
        let entries = found.entries().0;
        assert!(entries >= due, "{entries} of {due}");
        self.check(&found.to_store(), entries, power);
        was_killed
    }

    /// All that may not be lost is there, and what is there was written.
    fn check(&mut self, store: &Store, entries: u64, power: bool) {
        let sync = self.options.sync;
        let may_be_lost = |report: &Report| match sync {
            SyncAt::EachCall => false,
            SyncAt::EachPublish => !matches!(report.fact, Fact::Published(..)),
            _ => true,
        };
        self.reports.retain(|report| {
            let is_there = report.fact.is_in(store);
            let is_due = report.written <= entries || !power || !may_be_lost(report);
            assert!(is_there || !is_due, "{report:?} of {entries} entries");
            is_there
        });
        for report in &mut self.reports {
            report.written = report.written.min(entries); // of others' entries after it some may be lost
        }
        let state = store.state();
        for ticket in &store.areas().register()[..state.tickets as usize] {
            assert_written(store, ticket);
        }
    }
}

/// The pages of a ticket that are put are of one update, each in its place.
fn assert_written(store: &Store, ticket: &Record) {
    let mut by = None;
    for i in 0..ticket.n {
        if let Some(bytes) = put_page(store, ticket, i) {
            let number = |at: usize| u32::from_le_bytes(bytes[at..at + 4].try_into().unwrap());
            let [writer, update] = [0, 4].map(|at| u64::from(number(at)));
            assert_eq!(bytes, page(writer, update, i), "{ticket:?}");
            assert_eq!(*by.get_or_insert((writer, update)), (writer, update));
        }
    }
}

#[test]
fn what_each_thread_of_a_killed_process_was_told_is_there() {
    let mut reports = 0;
    kill_all("what_each_thread_of_a_killed_process_was_told", |seed| {
        let (mut site, mut random) = (Site::new(seed), Random::new(!seed));
        let kills = (0..IN_A_FOLDER).filter(|run| site.kill_one(*run, &mut random));
        let kills = kills.count() as u64;
        reports += site.reports.len();
        kills
    });
    println!("{reports} answers, all there in the end");
}
