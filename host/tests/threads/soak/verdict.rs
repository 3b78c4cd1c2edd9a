//! The verdict: all that writers, planners and readers were answered, against the plain model.

use super::readers::{ask, Answered};
use super::writers::{Begun, Log, Update};
use super::PAGE_SIZE;
use crate::model;
use crate::support::call::{Answer, Call};
use pit_host::{
    ByteOffset, Error, Limits, Line, Minute, Node, PageIndex, Published, Shared, Version,
};

/// The model after what the logs tell, each answer in them compared with its own. Tickets and versions are told in the
/// order of their numbers, and lines one after the other, each when its source is there whole; when a node was woven makes
/// no difference to what it is, nor does what other lines have done meanwhile.
pub fn replayed(limits: Limits, logs: &[&Log]) -> model::Store {
    let formatted =
        model::Store::format(limits.page_size, limits.pages, limits.nodes, limits.updates);
    let mut model = formatted.unwrap_or_else(|_| panic!("refused: {limits:?}"));
    let mut updates: Vec<&Update> = logs.iter().flat_map(|log| &log.updates).collect();
    updates.sort_by_key(|update| update.ticket);
    for update in &updates {
        assert_eq!(model.begin(update.pages.len() as u64), Ok(update.ticket.0));
        for (i, bytes) in (0..).zip(&update.pages) {
            let put = bytes
                .as_ref()
                .map(|bytes| model.put(update.ticket.0, i, bytes));
            assert!(put.map_or(true, |put| put == Ok(())));
        }
    }
    updates.retain(|update| update.assigned.is_some());
    updates.sort_by_key(|update| update.assigned.map(|(assigned, _)| assigned.version));
    let mut begun: Vec<Begun> = logs.iter().filter_map(|log| log.begun).collect();
    begun.sort_by_key(|begun| begun.line);
    replay_line(&mut model, Line(0), &updates);
    for begun in begun {
        let line = model.branch(begun.source.0, begun.version.0);
        assert_eq!(line, Ok(begun.line.0));
        replay_line(&mut model, begun.line, &updates);
    }
    model
}

/// Assigns a line's updates, which come in the order of their versions; weaves what was woven, and publishes.
fn replay_line(model: &mut model::Store, line: Line, updates: &[&Update]) {
    let own = updates.iter().filter(|update| update.line == line);
    for update in own.clone() {
        let (assigned, first) = update.assigned.expect("those without have gone");
        let due = model.assign(line.0, update.ticket.0, first.map(|first| first.0));
        assert_eq!(due, Ok((assigned.version.0, assigned.nodes)));
    }
    for update in own {
        for node in &update.woven {
            assert_eq!(model.weave(update.ticket.0), Ok(plain(node)));
        }
    }
    while model.publish(line.0, 0) != Ok(model::Published::Waiting) {}
}

/// A woven node in the model's form.
fn plain(node: &Node) -> model::Node {
    model::Node {
        version: node.version.0,
        first: node.first.0,
        span: node.span,
        numbers: (node.left.into(), node.right.into()),
        left: node.rest,
    }
}

/// On each line each of its own versions was published once, up to the last before the first that is not complete.
pub fn published(shared: &Shared, model: &model::Store, logs: &[&Log]) {
    let lines = model.lines.len() as u64;
    for line in (0..lines).map(Line) {
        let mut begun = logs.iter().filter_map(|log| log.begun);
        let start = begun.find(|begun| begun.line == line);
        let start = start.map_or(0, |begun| begun.version.0);
        published_on(shared, model, logs, line, start);
    }
    assert_eq!(shared.recent(Line(lines)), Err(Error::NoSuchLine));
}

/// The same on a line that began with so many versions.
fn published_on(shared: &Shared, model: &model::Store, logs: &[&Log], line: Line, start: u64) {
    let updates = logs.iter().flat_map(|log| &log.updates);
    let incomplete = updates.filter(|update| update.line == line && update.rest() > 0);
    let incomplete = incomplete.filter_map(|update| update.assigned);
    let first = incomplete.map(|(assigned, _)| assigned.version.0).min();
    let last = model.lines[line.0 as usize].shown.len() as u64;
    let due = first.map_or(last, |first| first - 1);
    assert_eq!(shared.recent(line), Ok(Version(due)));
    assert_eq!(shared.publish(line, Minute(0)), Ok(Published::Waiting));
    assert_eq!(model.recent(line.0), Ok(due));

    let told = logs.iter().flat_map(|log| &log.published);
    let told = told.filter(|(on, _)| *on == line);
    let mut told: Vec<u64> = told.map(|(_, version)| version.0).collect();
    told.sort_unstable();
    assert!(told.iter().copied().eq(start + 1..=due), "{line}: {told:?}");
    for v in due + 1..last + 2 {
        assert_eq!(shared.size(line, Version(v)), Err(Error::NotPublished));
    }
}

/// A published version of the model: its bytes, and a stamp for each page.
pub struct Snapshot {
    bytes: Vec<u8>,
    stamps: Vec<u64>,
}

/// Every published version of every line.
pub fn snapshots(model: &model::Store) -> Vec<Vec<Snapshot>> {
    let of_line = |line| {
        let mut snapshots: Vec<Snapshot> = vec![];
        for v in 0..=model.recent(line)? {
            let mut bytes = vec![0; model.size(line, v)? as usize];
            model.read(line, v, 0, bytes.len() as u64, &mut bytes)?;
            let stamps = stamps(v, &bytes, snapshots.last());
            snapshots.push(Snapshot { bytes, stamps });
        }
        Ok(snapshots)
    };
    let lines = (0..model.lines.len() as u64).map(of_line);
    let lines: model::Answer<_> = lines.collect();
    lines.expect("every version up to the last published")
}

/// The stamps of a version's pages, by the version before: the page's stamp there where it has the same bytes, else the
/// version itself.
fn stamps(v: u64, bytes: &[u8], before: Option<&Snapshot>) -> Vec<u64> {
    let stamp = |(page, bytes): (u64, &[u8])| {
        let unchanged = |before: &&Snapshot| {
            let old = before.part(page * PAGE_SIZE, PAGE_SIZE);
            old == Ok(Answer::Bytes(bytes.to_vec()))
        };
        let before = before.filter(unchanged);
        before.map_or(v, |before| before.stamps[page as usize])
    };
    (0..)
        .zip(bytes.chunks(PAGE_SIZE as usize))
        .map(stamp)
        .collect()
}

/// How many stamps of the published versions are below the newest version that covers their page.
pub fn resent(model: &model::Store, snapshots: &[Vec<Snapshot>]) -> usize {
    let mut resent = 0;
    for (line, versions) in (0..).zip(snapshots) {
        for (v, snapshot) in (0..).zip(versions) {
            let stamps = (0..).zip(&snapshot.stamps);
            let below = stamps.filter(|(page, stamp)| **stamp < model.covering(line, v, *page));
            resent += below.count();
        }
    }
    resent
}

impl Snapshot {
    fn part(&self, offset: u64, len: u64) -> Answered {
        let part = self.bytes.get(offset as usize..);
        let part = part.and_then(|rest| rest.get(..len as usize));
        let part = part.ok_or(Error::OutsideSnapshot);
        part.map(|part| Answer::Bytes(part.to_vec()))
    }
}

/// What the model answers.
pub fn due(snapshots: &[Vec<Snapshot>], asked: &Call) -> Answered {
    let (line, version) = asked.version().expect("a reader's call");
    let of = &snapshots[line.0 as usize][version.0 as usize];
    match *asked {
        Call::Stamp(_, _, page) => {
            let stamp = of.stamps.get(page.0 as usize);
            let stamp = stamp.ok_or(Error::OutsideSnapshot);
            stamp.map(|stamp| Answer::Version(Version(*stamp)))
        }
        Call::View(_, _, page) => of.part(page.0 * PAGE_SIZE, PAGE_SIZE),
        Call::Read(_, _, offset, len, _) => of.part(offset.0, len),
        _ => Ok(Answer::Size(of.bytes.len() as u64)),
    }
}

/// Every published version of every line, whole.
pub fn compare_all(shared: &Shared, snapshots: &[Vec<Snapshot>]) {
    for (line, versions) in (0..).map(Line).zip(snapshots) {
        for (version, snapshot) in (0..).map(Version).zip(versions) {
            let size = snapshot.bytes.len();
            let whole = Call::Read(line, version, ByteOffset(0), size as u64, size);
            let mut calls = vec![Call::Size(line, version), whole];
            for page in (0..=size as u64 / PAGE_SIZE).map(PageIndex) {
                calls.push(Call::Stamp(line, version, page));
                calls.push(Call::View(line, version, page));
            }
            for asked in &calls {
                assert_eq!(ask(shared, asked), due(snapshots, asked), "{asked:?}");
            }
        }
    }
}
