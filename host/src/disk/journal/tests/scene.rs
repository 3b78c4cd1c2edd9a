//! Random calls, and the journals that they make.

use super::random::Random;
use super::support::call::Call as Drawn;
use super::support::draw::{draw, Mix, Shown, SINGLE};
use crate::calls::areas::Limits;
use crate::calls::counters::Ticket;
use crate::calls::store::Store;
use crate::disk::journal::entry::{encode, seal, Content};
use crate::disk::journal::header::Header;
use crate::disk::journal::Call;
use std::fs;
use std::path::{Path, PathBuf};
use std::sync::atomic::{AtomicU64, Ordering};

pub const PAGE: usize = 16;
pub const HEADER: Header = Header {
    generation: 3,
    first: 41,
    salt: 0x5eed,
    before: 0,
};

pub fn empty_store() -> Store {
    Store::format(Limits::new(PAGE as u64, 600, 4_000, 200)).expect("limits in range")
}

/// Single calls, each of which is one entry.
const MIX: Mix = Mix { reads: 0, ..SINGLE };

/// Makes one random call that the store accepts, and gives it to `log`.
pub fn change(store: &mut Store, random: &mut Random, log: impl FnOnce(&Call<'_>)) {
    loop {
        let shown = Shown::of(store);
        let drawn = draw(random, &shown, &MIX);
        let call = entry_of(&drawn, &shown, random);
        if call.apply(store).is_ok() {
            return log(&call);
        }
    }
}

/// A drawn call as a journal has it. Of a ticket's nodes some are woven in a row.
fn entry_of<'a>(call: &'a Drawn, shown: &Shown, random: &mut Random) -> Call<'a> {
    match call {
        Drawn::Begin(n) => Call::Begin { n: *n },
        Drawn::Put(ticket, i, bytes) => Call::Put {
            ticket: ticket.0,
            i: *i,
            bytes,
        },
        Drawn::Write(line, ticket, first) => Call::Write {
            line: line.0,
            ticket: ticket.0,
            first: first.0,
        },
        Drawn::Append(line, ticket) => Call::Append {
            line: line.0,
            ticket: ticket.0,
        },
        Drawn::Weave(ticket) => Call::Weave {
            ticket: ticket.0,
            count: some_nodes(shown, *ticket, random),
        },
        Drawn::Publish(line, minute) => Call::Publish {
            line: line.0,
            minute: minute.0,
        },
        Drawn::SetWindows(text) => Call::SetWindows { text },
        Drawn::Branch(line, version) => Call::Branch {
            line: line.0,
            version: version.0,
        },
        other => unreachable!("{other:?} is not drawn"),
    }
}

/// Some of the nodes that a ticket has left; one too many where it has none, which is refused.
fn some_nodes(shown: &Shown, ticket: Ticket, random: &mut Random) -> u64 {
    let mut open = shown.open.iter().filter(|open| open.ticket == ticket);
    let left = open.next().and_then(|open| open.left);
    1 + random.below(left.unwrap_or(0).max(1))
}

/// A journal, with the store that each of its entries leaves.
pub struct Scene {
    pub bytes: Vec<u8>,
    /// The store before the first entry, and after each.
    pub stores: Vec<Store>,
    /// Where each entry begins, and where the last ends.
    pub begins: Vec<usize>,
}

impl Scene {
    /// The journal of so many random calls.
    pub fn new(seed: u64, calls: u64) -> Scene {
        let mut scene = Scene {
            bytes: HEADER.to_bytes().to_vec(),
            stores: vec![empty_store()],
            begins: vec![HEADER.to_bytes().len()],
        };
        let mut random = Random::new(seed);
        for number in (HEADER.first..).take(calls as usize) {
            scene.add(number, &mut random);
        }
        scene
    }

    fn add(&mut self, number: u64, random: &mut Random) {
        let mut store = self.stores[self.stores.len() - 1].clone();
        change(&mut store, random, |call| {
            self.append(&Content::Call(*call), number)
        });
        self.stores.push(store);
        self.begins.push(self.bytes.len());
    }

    fn append(&mut self, content: &Content<'_>, number: u64) {
        let begin = self.bytes.len();
        encode(content, number, &mut self.bytes);
        seal(&mut self.bytes[begin..], HEADER.salt);
    }

    /// Notes that all its entries are synced.
    pub fn synced(mut self) -> Scene {
        let last = self.last();
        self.append(&Content::Synced, last);
        self
    }

    pub fn calls(&self) -> usize {
        self.stores.len() - 1
    }

    /// The number of the last entry.
    pub fn last(&self) -> u64 {
        HEADER.first - 1 + self.calls() as u64
    }

    /// How many entries end at or before a byte.
    pub fn whole_before(&self, at: usize) -> usize {
        self.begins.iter().filter(|begin| **begin <= at).count() - 1
    }
}

/// A folder of one test's own, removed again.
pub struct Scratch(PathBuf);

impl Scratch {
    pub fn new(name: &str) -> Scratch {
        static COUNT: AtomicU64 = AtomicU64::new(0);
        let (process, count) = (std::process::id(), COUNT.fetch_add(1, Ordering::Relaxed));
        let name = format!("pit-journal-{name}-{process}-{count}");
        let path = std::env::temp_dir().join(name);
        let _ = fs::remove_dir_all(&path);
        fs::create_dir_all(&path).unwrap();
        Scratch(path)
    }

    pub fn path(&self) -> &Path {
        &self.0
    }

    pub fn file(&self, name: &str) -> PathBuf {
        self.0.join(name)
    }
}

impl Drop for Scratch {
    fn drop(&mut self) {
        let _ = fs::remove_dir_all(&self.0);
    }
}
