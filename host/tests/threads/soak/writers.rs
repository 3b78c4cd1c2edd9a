//! Writers, each on its own tickets, and planners, who begin lines of their own first. What one has done stands in a log
//! that outlives it.

use super::{FIRED, PAGE_SIZE};
use crate::random::Random;
use crate::support::call::Begin;
use pit_host::{
    Assigned, Error, Line, Minute, Node, PageIndex, Published, Shared, Ticket, Version,
};
use std::sync::{Mutex, MutexGuard};
use std::thread;

/// An update as far as it came, for a line. A write has its first page, an append has none.
pub struct Update {
    pub line: Line,
    pub ticket: Ticket,
    pub pages: Vec<Option<Vec<u8>>>,
    pub assigned: Option<(Assigned, Option<PageIndex>)>,
    pub woven: Vec<Node>,
}

impl Update {
    /// How many nodes are still to be woven.
    pub fn rest(&self) -> u64 {
        let nodes = self.assigned.map_or(0, |(assigned, _)| assigned.nodes);
        nodes - self.woven.len() as u64
    }
}

/// A line that a planner has begun, and from what.
#[derive(Clone, Copy)]
pub struct Begun {
    pub line: Line,
    pub source: Line,
    pub version: Version,
}

/// A writer's updates, the versions that it has published, how often it was held, and the line that it has begun.
#[derive(Default)]
pub struct Log {
    pub updates: Vec<Update>,
    pub published: Vec<(Line, Version)>,
    pub held: u64,
    pub begun: Option<Begun>,
}

/// Where in an update a writer dies.
#[derive(Clone, Copy, Debug, PartialEq)]
pub enum Stage {
    Begun,
    HalfPut,
    AllPut,
    Assigned,
    HalfWoven,
    AllWoven,
}

/// A writer's death: in which of its updates, where in it, and how.
#[derive(Clone, Copy, Debug)]
pub struct Death {
    update: u64,
    stage: Stage,
    pub by_panic: bool,
}

/// Deaths at every stage, in earlier and later updates.
pub fn deaths(random: &mut Random, count: usize, updates: u64) -> Vec<Death> {
    use Stage::*;
    let stages = [
        Begun, HalfWoven, HalfPut, Assigned, AllPut, HalfWoven, AllWoven,
    ];
    let stages = stages.into_iter().cycle().take(count);
    let deaths = stages.enumerate().map(|(at, stage)| Death {
        update: at as u64 * updates / count as u64,
        stage,
        by_panic: random.one_in(2),
    });
    deaths.collect()
}

/// What a writer's steps give when it dies.
struct Died;

pub struct Writer<'a> {
    shared: &'a Shared,
    log: &'a Mutex<Log>,
    random: Random,
    line: Line,
    /// Where the update in work ends, if the writer is to die in it.
    end: Option<Stage>,
}

impl<'a> Writer<'a> {
    pub fn new(shared: &'a Shared, log: &'a Mutex<Log>, random: Random) -> Writer<'a> {
        Writer {
            shared,
            log,
            random,
            line: Line(0),
            end: None,
        }
    }

    /// Begins a line from a published version, while others write, and goes on there; where sixteen lines exist, on the
    /// last of them, beside its planner.
    pub fn plan(mut self) -> Writer<'a> {
        for _ in 0..self.random.below(300) {
            thread::yield_now();
        }
        let (source, version) = self.some_version();
        match self.shared.try_line_from(source, version) {
            Ok(line) => {
                self.line = line;
                self.log().begun = Some(Begun {
                    line,
                    source,
                    version,
                });
            }
            Err(refused) => {
                assert_eq!(refused.error(), Some(Error::LinesFull));
                self.line = Line(15);
            }
        }
        self
    }

    /// A published version, of line 0 half the time, among the last ones most.
    fn some_version(&mut self) -> (Line, Version) {
        let lines = (0..).map(|line| self.shared.recent(Line(line)));
        let begun = lines.take_while(|recent| recent.is_ok()).count() as u64;
        let line = Line(self.random.below(2) * self.random.below(begun));
        let recent = self.shared.recent(line).expect("a line that has begun").0;
        let back = match self.random.below(4) {
            0 => self.random.below(recent + 1),
            _ => self.random.below(3).min(recent),
        };
        (line, Version(recent - back))
    }

    /// Makes so many updates of up to so many pages, or dies before.
    pub fn work(mut self, updates: u64, most: u64, death: Option<Death>) {
        for at in 0..updates {
            let death = death.filter(|death| death.update == at);
            self.end = death.map(|death| death.stage);
            let n = 1 + self.random.below(most);
            match (self.update(n), death) {
                (Err(Died), Some(death)) if death.by_panic => {
                    std::panic::resume_unwind(Box::new("a planned death")) // in silence
                }
                (Err(Died), _) => return,
                _ => (),
            }
        }
    }

    /// An update of n pages, by a writer that does not die.
    pub fn first_update(&mut self, n: u64) {
        assert!(self.update(n).is_ok());
    }

    /// An update of n pages, from its ticket to its publication.
    fn update(&mut self, n: u64) -> Result<(), Died> {
        let ticket = self.shared.begin(n).expect("room for all updates");
        self.log().updates.push(Update {
            line: self.line,
            ticket,
            pages: vec![None; n as usize],
            assigned: None,
            woven: vec![],
        });
        self.reach(Stage::Begun)?;
        let first = self.first();
        self.put_all(ticket, n, first)?;
        self.reach(Stage::AllPut)?;
        self.assign(ticket, first);
        self.reach(Stage::Assigned)?;
        self.weave_all(ticket)?;
        self.reach(Stage::AllWoven)?;
        self.publish();
        Ok(())
    }

    /// Weaves what is left of the log's last update, if anything is, and publishes.
    pub fn finish(&mut self) -> bool {
        let last = |u: &Update| (u.line, u.ticket, u.rest());
        let left = self.log().updates.last().map(last);
        match left {
            Some((line, ticket, 1..)) => {
                self.line = line;
                let _ = self.weave_all(ticket);
                self.publish();
                true
            }
            _ => false,
        }
    }

    fn log(&self) -> MutexGuard<'a, Log> {
        self.log.lock().expect("no panic while it was held")
    }

    fn last(&self, change: impl FnOnce(&mut Update)) {
        change(self.log().updates.last_mut().expect("an update in work"));
    }

    /// Lets others go on, for a while.
    fn pause(&mut self) {
        for _ in 0..self.random.below(3) {
            thread::yield_now();
        }
    }

    /// The same; then dies, if that is planned here.
    fn reach(&mut self, stage: Stage) -> Result<(), Died> {
        self.pause();
        if self.end == Some(stage) {
            Err(Died)
        } else {
            Ok(())
        }
    }

    /// A page within what is published on its line, or the one right after it.
    fn first(&mut self) -> u64 {
        let recent = self.shared.recent(self.line).expect("a line");
        let size = self.shared.size(self.line, recent);
        let size = size.expect("a published version");
        self.random.below(size / PAGE_SIZE + 1)
    }

    /// The bytes for a page: half the time those that are published there by now, so that pages are resent unchanged.
    fn bytes(&mut self, page: u64) -> Vec<u8> {
        let recent = self.shared.recent(self.line).expect("a line");
        let page = PageIndex(page);
        let published = self
            .shared
            .with_view(self.line, recent, page, <[u8]>::to_vec);
        match published {
            Ok(bytes) if self.random.one_in(2) => bytes,
            _ => self.random.bytes(PAGE_SIZE as usize),
        }
    }

    fn put_all(&mut self, ticket: Ticket, n: u64, first: u64) -> Result<(), Died> {
        let turn = self.random.below(n);
        for at in 0..n {
            let i = (at + turn) % n;
            let bytes = self.bytes(first + i);
            let (done, again) = (self.shared.put(ticket, i, &bytes), self.random.one_in(8));
            assert_eq!(done, Ok(()), "{ticket}");
            self.last(|update| update.pages[i as usize] = Some(bytes.clone()));
            if again {
                let done = self.shared.put(ticket, i, &bytes);
                assert_eq!(done, Err(Error::AlreadyPut), "{ticket}");
            }
            if at == n / 2 {
                self.reach(Stage::HalfPut)?;
            }
            self.pause();
        }
        Ok(())
    }

    /// A write where its pages were put for; or an append.
    fn assign(&mut self, ticket: Ticket, first: u64) {
        let first = match self.random.below(8) {
            0 => None,
            _ => Some(PageIndex(first)),
        };
        let assigned = match first {
            Some(first) => self.shared.write(self.line, ticket, first),
            None => self.shared.append(self.line, ticket),
        };
        let assigned = assigned.expect("room for all versions");
        self.last(|update| update.assigned = Some((assigned, first)));
    }

    fn weave_all(&mut self, ticket: Ticket) -> Result<(), Died> {
        let mut rest = self.log().updates.last().map_or(0, Update::rest);
        let half = rest / 2;
        while rest > 0 {
            let node = self.shared.weave(ticket).expect("a node is left");
            self.last(|update| update.woven.push(node));
            rest -= 1;
            if rest == half {
                self.reach(Stage::HalfWoven)?;
            }
            self.pause();
        }
        let more = self.shared.weave(ticket);
        assert_eq!(more, Err(Error::OutOfTurn), "{ticket}");
        Ok(())
    }

    /// Publishes all that is due on its line, half the time at a minute at which it may be held. What is held then, somebody
    /// publishes later.
    fn publish(&mut self) {
        let minute = Minute(FIRED.0 * self.random.below(2));
        loop {
            match self.shared.publish(self.line, minute).expect("a line") {
                Published::Now(version) => self.log().published.push((self.line, version)),
                Published::Waiting => return,
                Published::Held => {
                    assert_eq!(minute, FIRED);
                    self.log().held += 1;
                    return;
                }
                other => panic!("{other:?}"),
            }
        }
    }

    /// Publishes all that is due on any line.
    pub fn publish_all(&mut self) {
        for line in (0..).map(Line) {
            if self.shared.recent(line) == Err(Error::NoSuchLine) {
                return;
            }
            self.line = line;
            self.publish();
        }
    }
}
