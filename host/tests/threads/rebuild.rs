//! Stores that are rebuilt into others, again and again, under callers that go on: beside each a store that never is,
//! which makes the same calls. `PIT_SEED` names the first seed, `PIT_SCENES` how many scenes each test has.

use crate::differential::{bytes_of, published, Pair, PAGE};
use crate::folder::Folder;
use crate::random::{scenes, Random};
use crate::road::{Road, BLOB};
use crate::support::call::{each, make_on};
use pit_host::{
    ByteOffset, Error, Limits, Line, Minute, PageIndex, Shared, Snapshot, State, Store, Ticket,
    Version,
};
use std::collections::BTreeSet;
use std::path::Path;
use std::time::Duration;

const SCENES: u64 = 40;
/// How often a store is rebuilt in a scene, and how many calls there may be before.
const REBUILDS: u64 = 4;
const CALLS: [u64; 3] = [8, 40, 100];

/// What there is to know of a line of a store that was rebuilt.
#[derive(Clone, Debug, Default)]
struct Rebuilt {
    /// The versions that were not kept.
    gone: BTreeSet<u64>,
    /// The last version that was rebuilt.
    last: u64,
}

impl Rebuilt {
    fn has(&self, version: u64) -> bool {
        !self.gone.contains(&version)
    }

    /// The stamp of a page in a version of the line, where it is this one in a store that was never rebuilt.
    fn stamp(&self, version: u64, stamp: u64) -> u64 {
        if stamp > self.last {
            return stamp;
        }
        let mut kept = (1..=version.min(self.last)).rev();
        kept.find(|kept| self.has(*kept)).expect("the last rebuilt")
    }
}

struct Site {
    pair: Pair,
    lines: Vec<Rebuilt>,
    /// The tickets that were done with when the store was last rebuilt.
    done: Vec<Ticket>,
    /// Filled snapshots, each with its bytes.
    held: Vec<(Snapshot, Vec<u8>)>,
    tally: Tally,
}

/// How often something came up: a version refused, a line begun after a rebuild, a ticket taken over with a version and without, and a
/// version that was made of several updates of the new store.
#[derive(Clone, Copy, Debug, Default)]
struct Tally {
    refused: usize,
    begun: usize,
    assigned: usize,
    unassigned: usize,
    in_parts: usize,
}

impl Tally {
    fn counts(&self) -> [usize; 5] {
        let in_work = [self.assigned, self.unassigned];
        [
            self.refused,
            self.begun,
            in_work[0],
            in_work[1],
            self.in_parts,
        ]
    }
}

impl Site {
    fn new(mut random: Random) -> Site {
        let most = random.pick(&[3, 5, 64]);
        let (pages, nodes) = (10 * most, 60 * most);
        let pages = pages + random.below(10 * pages);
        let limits = Limits::new(PAGE as u64, pages, nodes + random.below(nodes), 40);
        let room = Limits::new(PAGE as u64, 20_000, 60_000, 1_000);
        let mut pair = Pair::with_room(random, limits, room);
        pair.most = most;
        Site {
            pair,
            lines: vec![],
            done: vec![],
            held: vec![],
            tally: Tally::default(),
        }
    }

    fn alone(&self) -> State {
        self.pair.alone.state()
    }

    fn shared(&self) -> &Shared {
        &self.pair.shared
    }

    /// What a line was rebuilt with; a line that has begun since has what it begins from.
    fn complete(&mut self) {
        for at in self.lines.len() as u64..self.alone().begun {
            let line = self.alone().line(Line(at));
            let mut of = self.lines.get(line.source as usize).cloned();
            let of = of.get_or_insert_with(Rebuilt::default);
            of.gone.retain(|gone| *gone <= line.start);
            of.last = of.last.min(line.start);
            self.tally.begun += usize::from(of.last > 0);
            self.lines.push(of.clone());
        }
    }

    fn has(&self, line: Line, version: Version) -> bool {
        self.lines[line.0 as usize].has(version.0)
    }

    // What must hold at any time.

    fn check(&mut self) {
        self.complete();
        for (line, version) in published(&self.pair.alone) {
            if self.has(line, version) {
                self.reads_alike(line, version);
            } else {
                self.is_refused(line, version);
                self.tally.refused += 1;
            }
        }
        for (line, of) in (0..).map(Line).zip(&self.lines) {
            let recent = self.pair.alone.recent(line).expect("a line");
            assert_eq!(self.shared().recent(line), Ok(recent));
            let versions = (1..=recent.0).filter(|version| of.has(*version));
            let versions: Vec<Version> = versions.map(Version).collect();
            assert_eq!(self.shared().versions(line), Ok(versions));
        }
        self.pair.same_windows();
        self.pair.same_open_tickets();
        self.done_tickets();
        self.snapshots();
    }

    fn reads_alike(&self, line: Line, version: Version) {
        let (shared, alone) = (self.shared(), &self.pair.alone);
        let due = bytes_of(alone, line, version).expect("published");
        assert_eq!(shared.size(line, version), Ok(due.len() as u64));
        let mut bytes = vec![0; due.len()];
        let read = shared.read(line, version, ByteOffset(0), &mut bytes);
        assert_eq!((read, &bytes), (Ok(()), &due), "{line} {version}");
        let snapshot = shared.snapshot(line, version).expect("published");
        let snapshot = snapshot.filled().expect("published");
        let rebuilt = &self.lines[line.0 as usize];
        for (page, due) in (0..).map(PageIndex).zip(due.chunks(PAGE)) {
            assert_eq!(snapshot.view(page), Ok(due));
            let stamp = alone.stamp(line, version, page).expect("a page of it");
            let due = rebuilt.stamp(version.0, stamp.0);
            assert!(due >= stamp.0, "whoever has an older page fetches it");
            let told = shared.stamp(line, version, page);
            assert_eq!(told, Ok(Version(due)), "{line} {version} {page}");
        }
    }

    fn is_refused(&self, line: Line, version: Version) {
        let (shared, refused) = (self.shared(), Error::NotPublished);
        assert_eq!(shared.snapshot(line, version).err(), Some(refused));
        let of_a_version = each(line, version, [Ticket(0); 3], &[]).into_iter();
        for call in of_a_version.filter(|call| call.version().is_some()) {
            let failure = make_on(shared, &call).expect_err("a refusal");
            assert_eq!(failure.error(), Some(refused), "{call:?}");
        }
    }

    fn done_tickets(&mut self) {
        self.shared().set_clock(|| Minute(0)); // the last call's may have been past the week
        for ticket in self.done.iter().copied() {
            let (shared, refused) = (&self.pair.shared, Error::NoSuchTicket);
            assert_eq!(shared.put(ticket, 0, &[1; PAGE]), Err(refused));
            assert_eq!(shared.append(Line(0), ticket), Err(refused));
            assert_eq!(shared.weave(ticket), Err(refused));
            assert_eq!(shared.finish(ticket), Err(refused));
        }
    }

    /// Snapshots of any store before show what they showed, and advance to the newest.
    fn snapshots(&mut self) {
        for (snapshot, bytes) in &mut self.held {
            let mut read = vec![0; bytes.len()];
            let done = snapshot.read(ByteOffset(0), &mut read);
            assert_eq!((done, &read), (Ok(()), &*bytes));
            if self.pair.random.one_in(4) {
                snapshot.advance().expect("a line that has begun");
                let recent = self.pair.alone.recent(snapshot.line());
                assert_eq!(Ok(snapshot.version()), recent);
                let now = bytes_of(&self.pair.alone, snapshot.line(), snapshot.version());
                *bytes = now.expect("published");
            }
        }
        let versions = published(&self.pair.alone);
        let (line, version) = self.pair.random.pick(&versions);
        if self.has(line, version) {
            let snapshot = self.pair.shared.snapshot(line, version);
            let snapshot = snapshot.and_then(Snapshot::filled).expect("published");
            let bytes = bytes_of(&self.pair.alone, line, version);
            self.held.push((snapshot, bytes.expect("published")));
        }
    }

    // Rebuilding.

    /// Some of the versions that there are, or none, or all.
    fn choose(&mut self) -> Vec<(Line, Version)> {
        let one_in = self.pair.random.pick(&[1, 3, 8, 1_000]);
        let mut versions = published(&self.pair.alone);
        versions.retain(|(line, version)| self.has(*line, *version));
        versions.retain(|_| self.pair.random.one_in(one_in));
        versions
    }

    /// The line on which a version was made.
    fn owner(&self, mut line: Line, version: Version) -> (Line, Version) {
        let state = self.alone();
        while line.0 > 0 && version.0 <= state.line(line).start {
            line = Line(state.line(line).source);
        }
        (line, version)
    }

    /// The versions that are kept where these are chosen, of each line in turn.
    fn kept(&self, chosen: &[(Line, Version)]) -> Vec<(Line, Version)> {
        let state = self.alone();
        let lines = (0..state.begun).map(Line);
        let of_lines = lines.flat_map(|line| {
            let of = state.line(line);
            [(line, of.published), (Line(of.source), of.start)]
        });
        let of_lines = of_lines.map(|(line, version)| (line, Version(version)));
        let all = chosen.iter().copied().chain(of_lines);
        let owners: BTreeSet<_> = all.map(|(line, v)| self.owner(line, v)).collect();
        let mut kept = published(&self.pair.alone);
        kept.retain(|(line, v)| v.0 > 0 && owners.contains(&self.owner(*line, *v)));
        kept
    }

    /// Rebuilds what is chosen into a store with these limits.
    fn rebuild(&mut self, limits: Limits, chosen: &[(Line, Version)]) {
        let kept = self.kept(chosen);
        assert_eq!(self.shared().rebuild(limits, chosen), Ok(kept.clone()));
        assert_eq!(self.shared().limits(), limits);
        for (at, line) in (0..).zip(&mut self.lines) {
            let is_kept = |v: &u64| kept.contains(&(Line(at), Version(*v)));
            line.last = self.pair.alone.state().line(Line(at)).published;
            line.gone = (1..=line.last).filter(|v| !is_kept(v)).collect();
        }
        let work: BTreeSet<_> = self.pair.in_work().iter().map(|w| w.ticket).collect();
        let tickets = (1..=self.alone().tickets).map(Ticket);
        self.done = tickets.filter(|t| !work.contains(t)).collect();
        self.count(&kept);
    }

    fn count(&mut self, kept: &[(Line, Version)]) {
        let work = self.pair.in_work();
        let assigned = work.iter().filter(|work| work.left.is_some()).count();
        self.tally.assigned += assigned;
        self.tally.unassigned += work.len() - assigned;
        let versions = kept.iter().filter(|(line, _)| *line == Line(0)).count();
        let own = self.shared().to_store().state().line(Line(0)).published as usize;
        self.tally.in_parts += own - versions;
    }

    /// Limits of just what the store has used.
    fn used(&self) -> Limits {
        let s = self.shared().to_store().state();
        let [pages, nodes, updates] = [s.taken, s.places, s.tickets].map(|used| used.max(1));
        Limits::new(PAGE as u64, pages, nodes, updates)
    }

    /// A rebuild that is refused changes nothing.
    fn refused(&self, limits: Limits, chosen: &[(Line, Version)], due: Error) {
        let before = self.shared().to_store();
        assert_eq!(
            self.shared().rebuild(limits, chosen),
            Err(due),
            "{limits:?}"
        );
        assert!(self.shared().to_store() == before);
    }

    fn refusals(&mut self) {
        let (limits, line) = (self.shared().limits(), Line(0));
        let with = |change: fn(&mut Limits)| {
            let mut changed = limits;
            change(&mut changed);
            changed
        };
        self.refused(with(|l| l.page_size = 24), &[], Error::PageSize);
        self.refused(with(|l| l.updates = 0), &[], Error::Capacity);
        self.refused(with(|l| l.page_size = 32), &[], Error::PageLength);
        let next = Version(self.alone().line(line).published + 1);
        self.refused(limits, &[(line, next)], Error::NotPublished);
        let none = Line(self.alone().begun);
        self.refused(limits, &[(none, Version(0))], Error::NoSuchLine);
        let gone = self.lines[0].gone.iter().next().copied();
        if let Some(gone) = gone {
            self.refused(limits, &[(line, Version(gone))], Error::NotPublished);
        }
    }

    /// One less of anything than a rebuild needs is too little.
    fn too_little(&self, enough: Limits, chosen: &[(Line, Version)]) {
        let (mut pages, mut nodes, mut updates) = (enough, enough, enough);
        pages.pages -= 1;
        nodes.nodes -= 1;
        updates.updates -= 1;
        let due = [
            (pages, Error::PagesFull),
            (nodes, Error::NodesFull),
            (updates, Error::RegisterFull),
        ];
        for (limits, due) in due {
            if limits.check().is_ok() {
                self.refused(limits, chosen, due);
            }
        }
    }

    /// The store is saved, and its callers go on with the one that is loaded.
    fn reload(&mut self, file: &Path) {
        let saved = self.shared().save(file).expect("a file");
        assert_eq!(Ok(saved), self.pair.alone.recent(Line(0)));
        let other = if self.pair.random.one_in(2) {
            Shared::load(file).expect("the file")
        } else {
            let limits = Limits::new(PAGE as u64, 1, 1, 1);
            let other = Shared::new(Store::format(limits).expect("in range"));
            other.reload(file).expect("the file");
            other
        };
        assert!(other.to_store() == self.shared().to_store());
        self.pair.shared = other;
        self.held.clear(); // they would go on with the other one
    }
}

/// A store is rebuilt again and again: into just what it has used, which is always enough; into just what it then needs; and
/// into a larger one.
fn rebuilds(random: Random, file: &Path) -> Tally {
    let mut site = Site::new(random);
    for _ in 0..REBUILDS {
        let calls = site.pair.random.pick(&CALLS);
        site.pair.run(calls);
        site.check();
        site.refusals();
        let chosen = site.choose();
        let before = site.used();
        site.rebuild(before, &chosen);
        site.check();
        let enough = site.used();
        site.too_little(enough, &chosen);
        site.rebuild(enough, &chosen);
        site.check();
        let more = |limit: u64, random: &mut Random| limit + random.below(2 * limit + 20);
        let random = &mut site.pair.random;
        let larger = Limits::new(
            PAGE as u64,
            more(enough.pages, random),
            more(enough.nodes, random),
            more(enough.updates, random).min(4_096),
        );
        site.rebuild(larger, &chosen);
        site.check();
        if site.pair.random.one_in(2) {
            site.reload(file);
            site.check();
        }
    }
    site.pair.run(CALLS[1]);
    site.check();
    site.tally
}

#[test]
fn callers_go_on_as_if_nothing_had_been() {
    let folder = Folder::new("rebuild");
    let (file, mut tallies) = (folder.0.join("store"), vec![]);
    scenes("callers_go_on_as_if_nothing_had_been", SCENES, |random| {
        tallies.push(rebuilds(random, &file));
    });
    let few = |at: usize| tallies.iter().filter(|t| t.counts()[at] > 0).count() < 5;
    let rare: Vec<usize> = (0..5).filter(|at| few(*at)).collect();
    assert!(
        tallies.len() < SCENES as usize || rare.is_empty(),
        "{tallies:?}"
    );
}

/// Pages that were written in rows of 64 by updates that begin at multiples of 64, and one page before them: rows of 64 from that page on
/// would make more nodes.
#[test]
fn rows_are_cut_where_updates_were() {
    let limits = Limits::new(PAGE as u64, 1_000, 10_000, 20);
    let shared = Shared::new(Store::format(limits).expect("in range"));
    let (live, page) = (Line(0), [7; PAGE]);
    let update = |first: u64, n: usize| {
        let done = shared.update(live, PageIndex(first), &vec![&page[..]; n]);
        done.expect("room for all")
    };
    for (first, n) in [(0, 64), (64, 64), (128, 64), (192, 64)] {
        update(first, n);
    }
    for (first, n) in [(63, 1), (64, 64), (128, 64)] {
        update(first, n);
    }
    let s = shared.to_store().state();
    let used = Limits::new(PAGE as u64, s.taken, s.places, s.tickets);
    let kept = shared.rebuild(used, &[(live, Version(4))]);
    assert_eq!(kept, Ok(vec![(live, Version(4)), (live, Version(7))]));
}

#[test]
fn another_page_size_is_refused_also_where_there_is_no_page() {
    let limits = Limits::new(PAGE as u64, 4, 8, 2);
    let shared = Shared::new(Store::format(limits).expect("in range"));
    let other = Limits::new(32, 4, 8, 2);
    assert_eq!(shared.rebuild(other, &[]), Err(Error::PageLength));
    shared.begin(1).expect("room");
    assert_eq!(shared.rebuild(other, &[]), Err(Error::PageLength));
    assert_eq!(shared.limits(), limits);
}

/// A ticket in work without a version may be left out, and its room with it. All others go on.
#[test]
fn tickets_that_are_given_up_are_left_out() {
    let limits = Limits::new(PAGE as u64, 40, 80, 8);
    let shared = Shared::new(Store::format(limits).expect("in range"));
    let (live, page) = (Line(0), [7; PAGE]);
    shared.append_pages(live, &[&page]).expect("room");
    let [dead, in_work, assigned] = [9, 2, 1].map(|n| shared.begin(n).expect("room"));
    for (ticket, i) in [(dead, 3), (in_work, 1), (assigned, 0)] {
        shared.put(ticket, i, &page).expect("a page of it");
    }
    shared.append(live, assigned).expect("put");
    let before = shared.to_store();
    let refused = [
        (Ticket(0), Error::NoSuchTicket),
        (Ticket(5), Error::NoSuchTicket),
        (Ticket(1), Error::OutOfTurn),
        (assigned, Error::OutOfTurn),
    ];
    for (ticket, due) in refused {
        let rebuilt = shared.rebuild_without(limits, &[], &[dead, ticket], Duration::ZERO);
        assert_eq!(rebuilt, Err(due), "{ticket}");
        assert!(shared.to_store() == before);
    }
    let room = shared.room();
    let rebuilt = shared.rebuild_without(limits, &[], &[dead, dead], Duration::ZERO);
    let rebuilt = rebuilt.map(|rebuilt| (rebuilt.versions, rebuilt.left_out));
    assert_eq!(rebuilt, Ok((vec![(live, Version(1))], vec![dead])));
    let more = shared.room();
    assert_eq!(
        (more.updates, more.pages),
        (room.updates + 1, room.pages + 9)
    );
    assert_eq!(shared.put(dead, 0, &page), Err(Error::NoSuchTicket));
    let again = shared.rebuild_without(limits, &[], &[dead], Duration::ZERO);
    assert_eq!(again, Err(Error::NoSuchTicket));
    assert_eq!(shared.finish(assigned), Ok(Version(2)));
    assert_eq!(shared.put(in_work, 0, &page), Ok(()));
    assert_eq!(
        shared.append(live, in_work).map(|a| a.version),
        Ok(Version(3))
    );
    assert_eq!(shared.begin(1), Ok(Ticket(5)));
}

/// What is told to be left in updates goes by those that callers have made, and not by those of a rebuild, which have up to 64 pages.
#[test]
fn room_is_told_in_callers_updates_after_a_rebuild() {
    let limits = Limits::new(PAGE as u64, 2_000, 20_000, 900);
    let shared = Shared::new(Store::format(limits).expect("in range"));
    let (live, page) = (Line(0), [7; PAGE]);
    let update = |first: u64| {
        let pages = [&page[..]; 2];
        shared.update(live, PageIndex(first), &pages)
    };
    for at in 0..128 {
        update(2 * at).expect("room");
    }
    let folder = Folder::new("rebuild-room");
    let file = folder.0.join("store");
    for _ in 0..3 {
        shared.rebuild(limits, &[]).expect("room");
        let told = shared.room().at_present_mix;
        shared.save(&file).expect("a file");
        let loaded = Shared::load(&file).expect("the file");
        assert_eq!(loaded.room(), shared.room());
        let fits = (0..).take_while(|at| update(*at % 128).is_ok()).count() as u64;
        assert!((fits / 2..=fits).contains(&told), "{told} of {fits}");
    }
}

/// A store that has room for few updates is rebuilt, into one that has room for as many, while a writer and readers go on: the
/// writer waits where it is full, and the readers never.
#[test]
fn readers_and_a_writer_beside_rebuilds() {
    let limits = Limits::worst(PAGE as u64, BLOB, 20, BLOB).expect("in range");
    let shared = Shared::new(Store::format(limits).expect("in range"));
    Road::new(400).run(&shared, || {
        let kept = shared
            .rebuild(limits, &[])
            .expect("room for the last version");
        assert!(kept.len() <= 1);
    });
}
