//! Scripts: lines and the answers that are due. Random ones mix steps that move the store on with
//! steps that are refused; the model's state chooses the arguments. A host's scripts set windows too.

pub mod windows;

use crate::model::text::{
    hexadecimal, Program, LONGEST_LINE, LONGEST_READ, MOST_NODES, MOST_PAGE_BYTES, MOST_UPDATES,
};
use crate::model::Store;
use crate::support::random::Random;
use std::collections::HashMap;

/// Numbers at which a limit, a width or a sum can go wrong.
const EDGES: [u64; 30] = [
    0,
    1,
    2,
    3,
    14,
    15,
    16,
    17,
    32,
    63,
    64,
    65,
    255,
    256,
    257,
    2_047,
    2_048,
    2_049,
    10_079,
    10_080,
    32_768,
    65_536,
    1 << 32,
    (1 << 32) + 1,
    (1 << 32) + 16,
    1 << 60,
    1 << 63,
    u64::MAX - 255,
    u64::MAX - 15,
    u64::MAX,
];

/// Each word, with how many numbers follow it.
pub const WORDS: [(&str, usize); 13] = [
    ("FORMAT", 4),
    ("BEGIN", 1),
    ("PUT", 2),
    ("WRITE", 3),
    ("APPEND", 2),
    ("WEAVE", 1),
    ("PUBLISH", 2),
    ("BRANCH", 2),
    ("READ", 4),
    ("SIZE", 2),
    ("RECENT", 1),
    ("STAMP", 3),
    ("WORST", 2),
];

/// Lines without their line feed, and their answers.
#[derive(Default)]
pub struct Script {
    pub name: String,
    pub lines: Vec<Vec<u8>>,
    pub answers: Vec<String>,
    pub stamps: Stamps,
}

/// What the stamps of a script were, beside all that it asked.
#[derive(Clone, Copy, Default)]
pub struct Stamps {
    /// Below the newest version that covers the page: its bytes were resent.
    pub resent: u64,
    /// Not the version whose update first covered the page, and below the newest that covers it: changed, then resent.
    pub between: u64,
    /// On a branch, of a version that it shares with its source.
    pub shared: u64,
    /// The same where an update of the branch's own has resent the page.
    pub across: u64,
}

/// The script of a seed, from an accepted FORMAT on.
pub fn random(seed: u64) -> Script {
    let mut author = Author::new(seed);
    author.script.name = format!("PIT_SEED={seed}");
    author.main_part();
    author.script
}

/// The script of a seed for a fresh program: steps before any accepted FORMAT, then the rest.
pub fn random_from_the_start(seed: u64) -> Script {
    let mut author = Author::new(seed);
    author.script.name = format!("PIT_SEED={seed}, for a fresh program");
    for _ in 0..author.random.below(30) {
        match author.random.below(5) {
            0 => author.damaged(),
            1 => author.odd_format(),
            2 => author.worst(),
            _ => author.any_numbers(),
        }
    }
    author.main_part();
    author.script
}

/// The script of a seed for a host, from an accepted FORMAT on.
pub fn random_of_a_host(seed: u64) -> Script {
    let mut author = Author::new(seed);
    author.script.name = format!("PIT_SEED={seed}, of a host");
    author.host = true;
    author.main_part();
    author.script
}

/// Writes a script, with the model at hand.
struct Author {
    /// Whether it is a host's, which sets windows.
    host: bool,
    random: Random,
    model: Program,
    script: Script,
    /// For which line and first page the tickets' pages are put.
    plans: HashMap<u64, (u64, u64)>,
}

impl Author {
    fn new(seed: u64) -> Author {
        Author {
            host: false,
            random: Random::new(seed),
            model: Program::default(),
            script: Script::default(),
            plans: HashMap::new(),
        }
    }

    fn say(&mut self, line: impl Into<Vec<u8>>) {
        let line = line.into();
        let answer = if self.host {
            self.model.answer_to_host(&line)
        } else {
            self.model.answer(&line)
        };
        if answer == "ok" {
            self.plans.clear(); // the tickets are those of another store
        }
        if let Some(stamp) = answer.strip_prefix("stamp,") {
            self.count_stamp(&line, stamp.parse().expect("a version"));
        }
        self.script.answers.push(answer);
        self.script.lines.push(line);
    }

    fn store(&self) -> &Store {
        self.model.store.as_ref().expect("FORMAT was accepted")
    }

    /// Counts a stamp by what it tells.
    fn count_stamp(&mut self, line: &[u8], stamp: u64) {
        let fields = line.split(|b| *b == b',').skip(1);
        let fields = fields.map(|field| std::str::from_utf8(field).ok()?.parse().ok());
        let numbers: Option<Vec<u64>> = fields.collect();
        let numbers = numbers.expect("an accepted line has numbers");
        let (line, v, page) = (numbers[0], numbers[1], numbers[2]);
        let store = self.store();
        let (covering, start) = (
            store.covering(line, v, page),
            store.lines[line as usize].start,
        );
        let resent = stamp < covering;
        let first = store.page(line, stamp - 1, page).is_none();
        let stamps = &mut self.script.stamps;
        stamps.resent += u64::from(resent);
        stamps.between += u64::from(resent && !first);
        stamps.shared += u64::from(line > 0 && stamp <= start);
        stamps.across += u64::from(line > 0 && stamp <= start && start < covering);
    }

    fn main_part(&mut self) {
        let steps = self.accepted_format();
        let many_lines = self.random.one_in(8);
        for at in 0..steps {
            self.step();
            if many_lines && at > steps / 4 {
                self.branch();
            }
        }
        if !self.random.one_in(4) {
            self.finish();
        }
    }

    /// A small, middling or large store; gives the number of steps that suits it.
    fn accepted_format(&mut self) -> u64 {
        let kind = self.random.below(16);
        let sizes: &[u64] = if kind < 10 {
            &[16, 16, 16, 32]
        } else {
            &[16, 32, 64, 128, 256]
        };
        let s = self.random.pick(sizes);
        let all = MOST_PAGE_BYTES / s;
        let (pages, nodes, updates, steps) = match kind {
            0..=9 => (24, 90, 10, 80),
            10..=14 => (all.min(100), 400, 30, 160),
            _ => (all, MOST_NODES, MOST_UPDATES, 300),
        };
        let full = self.random.one_in(2);
        let mut up_to = |most| self.random.between(if full { most } else { 1 }, most);
        let line = format!(
            "FORMAT,{s},{},{},{}",
            up_to(pages),
            up_to(nodes),
            up_to(updates)
        );
        self.say(line);
        self.random.between(steps / 4, steps)
    }

    fn step(&mut self) {
        if self.host && self.random.one_in(8) {
            self.list_of_windows();
        }
        match self.random.below(49) {
            0..=5 => self.begin(),
            6..=9 => self.put_one(),
            10..=12 => self.put_all(),
            13..=17 => self.assign(),
            18..=21 => self.weave(1),
            22..=24 => self.weave(200),
            25..=28 => self.publish(),
            29..=31 => self.read(),
            32..=33 => self.stamp(),
            34 => self.size(),
            35 => self.recent(),
            36 => self.odd_format(),
            37 => self.branch(),
            38 => self.any_numbers(),
            39 => self.damaged(),
            40 => self.worst(),
            _ => self.whole_update(),
        }
    }

    /// An update from BEGIN to PUBLISH, of a few pages that are mostly there already; on the last line half the time.
    fn whole_update(&mut self) {
        let (n, ticket) = (
            self.random.between(1, 3),
            self.store().tickets.len() as u64 + 1,
        );
        self.say(format!("BEGIN,{n}"));
        if self.store().tickets.len() as u64 != ticket {
            return;
        }
        let line = match self.random.below(2) {
            0 => self.store().lines.len() as u64 - 1,
            _ => self.line(),
        };
        let most = self.store().last_size(line).min(4);
        let f = self.random.between(0, most);
        self.plans.insert(ticket, (line, f));
        for i in self.empty_slots(ticket) {
            self.put(ticket, i);
        }
        self.say(format!("WRITE,{line},{ticket},{f}"));
        let update = self.store().update_of(ticket);
        let left = update.map_or(0, |update| self.store().nodes_left(update));
        for _ in 0..left {
            self.say(format!("WEAVE,{ticket}"));
        }
        let minute = self.minute();
        self.say(format!("PUBLISH,{line},{minute}"));
    }

    /// Mostly the number itself; now and then one near it, or far off.
    fn bent(&mut self, right: u64) -> u64 {
        if !self.random.one_in(24) {
            return right;
        }
        match self.random.below(5) {
            0 => right.wrapping_add(1),
            1 => right.wrapping_sub(1),
            2 => right.wrapping_add(1 << 32),
            3 => self.random.pick(&EDGES),
            _ => self.any_number(),
        }
    }

    /// A number of any length in bits.
    fn any_number(&mut self) -> u64 {
        let drop = self.random.below(64);
        self.random.next() >> drop
    }

    /// A ticket that suits, if a few tries find one; else any other, or the first that is not given.
    fn ticket(&mut self, suits: impl Fn(&Store, u64) -> bool) -> u64 {
        let mut ticket = 1;
        for _ in 0..8 {
            let given = self.store().tickets.len() as u64;
            ticket = self.random.between(1, given.max(1));
            if ticket <= given && suits(self.store(), ticket) {
                break;
            }
        }
        ticket
    }

    /// The empty slots of a ticket, in any order.
    fn empty_slots(&mut self, ticket: u64) -> Vec<u64> {
        let store = self.model.store.as_ref().expect("FORMAT was accepted");
        match store.tickets.get(ticket as usize - 1) {
            Some(ticket) => {
                let empty = |i: &u64| ticket.slots[*i as usize].is_none();
                self.random.shuffled((0..ticket.n).filter(empty))
            }
            None => vec![],
        }
    }

    /// A line that has begun: line 0 and the last one most.
    fn line(&mut self) -> u64 {
        let last = self.store().lines.len() as u64 - 1;
        match self.random.below(4) {
            0 => self.random.between(0, last),
            1 => last,
            _ => 0,
        }
    }

    fn publish(&mut self) {
        let line = self.line();
        let (line, minute) = (self.bent(line), self.minute());
        self.say(format!("PUBLISH,{line},{minute}"));
    }

    fn recent(&mut self) {
        let line = self.line();
        let line = self.bent(line);
        self.say(format!("RECENT,{line}"));
    }

    /// Mostly from a published version, an assigned one among the others.
    fn branch(&mut self) {
        let line = self.line();
        let v = if self.random.one_in(8) {
            self.store().lines[line as usize].shown.len() as u64
        } else {
            self.published_version(line)
        };
        let line = self.bent(line);
        self.say(format!("BRANCH,{line},{v}"));
    }

    fn begin(&mut self) {
        let unused = self.store().page_numbers_unused();
        let most = match self.random.below(8) {
            0 => 66,
            1 => unused.clamp(1, 64),
            _ => unused.clamp(1, 4),
        };
        let n = self.random.between(1, most);
        let n = self.bent(n);
        self.say(format!("BEGIN,{n}"));
    }

    /// For which line and first page a ticket's pages are put: drawn once, so that they can be put by what stands there.
    fn plan(&mut self, ticket: u64) -> (u64, u64) {
        if let Some(plan) = self.plans.get(&ticket) {
            return *plan;
        }
        let line = self.line();
        let size = self.store().last_size(line);
        let plan = (line, self.random.between(0, size));
        self.plans.insert(ticket, plan);
        plan
    }

    /// What stands where page `i` of a ticket is to go: the bytes as last assigned on the line, or else as in an earlier
    /// version. Past the blob's end, those of another page.
    fn standing(&mut self, ticket: u64, i: u64, last: bool) -> Option<Vec<u8>> {
        let (line, f) = self.plan(ticket);
        let shown = self.store().lines[line as usize].shown.len() as u64;
        let v = match last {
            true => shown,
            false => self.random.between(0, shown),
        };
        let size = self.store().size_in_pages(line, v);
        if size == 0 {
            return None;
        }
        let page = if f + i < size {
            f + i
        } else {
            self.random.below(size)
        };
        self.store().page(line, v, page).map(<[u8]>::to_vec)
    }

    /// Page bytes, mostly of the right length; never for a line above 600 bytes. Half of the pages repeat the bytes that stand
    /// where they go at that time, one in eight those of an earlier version, one in eight differs in one byte from what
    /// stands there, and the others are new, as all are while the line is empty.
    fn page_bytes(&mut self, ticket: u64, i: u64) -> String {
        let s = self.store().page_size;
        let length = match self.random.below(40) {
            0 => self.random.below(270),
            1 => self.random.pick(&[0, 1, s - 1, s + 1, s / 2]),
            _ => s,
        };
        let kind = self.random.below(8);
        let standing = match kind {
            0..=5 if length == s => self.standing(ticket, i, kind != 4),
            _ => None,
        };
        let bytes = match standing {
            Some(mut bytes) => {
                if kind == 5 {
                    let at = self.random.pick(&[0, s / 2, s - 1]);
                    bytes[at as usize] ^= 1 << self.random.below(8);
                }
                bytes
            }
            None => (0..length).map(|_| self.random.next() as u8).collect(),
        };
        hexadecimal(&bytes)
    }

    fn put(&mut self, ticket: u64, i: u64) {
        let bytes = self.page_bytes(ticket, i);
        let (ticket, i) = (self.bent(ticket), self.bent(i));
        self.say(format!("PUT,{ticket},{i},{bytes}"));
    }

    fn open_ticket(&mut self) -> u64 {
        self.ticket(|store, ticket| {
            let slots = &store.tickets[ticket as usize - 1].slots;
            slots.contains(&None)
        })
    }

    fn put_one(&mut self) {
        let ticket = self.open_ticket();
        let i = self.empty_slots(ticket).first().copied().unwrap_or(0);
        self.put(ticket, i);
    }

    /// Puts all that is missing in a ticket, unless an argument is bent.
    fn put_all(&mut self) {
        let ticket = self.open_ticket();
        for i in self.empty_slots(ticket) {
            self.put(ticket, i);
        }
    }

    fn assign(&mut self) {
        let ticket = self.ticket(|store, ticket| {
            let slots = &store.tickets[ticket as usize - 1].slots;
            !slots.contains(&None) && store.update_of(ticket).is_none()
        });
        let planned = !self.random.one_in(4);
        let (line, first) = match planned {
            true => self.plan(ticket),
            false => (self.line(), 0),
        };
        let size = self.store().last_size(line);
        let (line, ticket) = (self.bent(line), self.bent(ticket));
        if self.random.one_in(if planned { 8 } else { 3 }) {
            return self.say(format!("APPEND,{line},{ticket}"));
        }
        let f = match self.random.below(12) {
            0 => size + 1,
            _ if planned => first,
            1..=3 => size,
            _ => self.random.between(0, size),
        };
        let f = self.bent(f);
        self.say(format!("WRITE,{line},{ticket},{f}"));
    }

    /// Weaves up to so many nodes of one ticket.
    fn weave(&mut self, most: u64) {
        let unfinished = |store: &Store, ticket| {
            let update = store.update_of(ticket);
            update.map_or(false, |update| store.nodes_left(update) > 0)
        };
        let ticket = self.ticket(unfinished);
        for _ in 0..most {
            let named = self.bent(ticket);
            self.say(format!("WEAVE,{named}"));
            let given = self.store().tickets.len() as u64;
            if ticket > given || !unfinished(self.store(), ticket) {
                return;
            }
        }
    }

    /// Mostly a published version of a line, the last ones most.
    fn published_version(&mut self, line: u64) -> u64 {
        let published = self.store().lines[line as usize].published;
        let back = self.random.below(published + 1);
        let back = if self.random.one_in(2) {
            back
        } else {
            back.min(2)
        };
        self.bent(published - back)
    }

    /// The size in bytes of a version that may not be there.
    fn bytes_of(&self, line: u64, v: u64) -> u64 {
        self.store().size(line, v).unwrap_or(64)
    }

    fn read(&mut self) {
        let line = self.line();
        let v = self.published_version(line);
        let size = self.bytes_of(line, v);
        let offset = self.random.between(0, size);
        let most = (size - offset).min(LONGEST_READ);
        let length = match self.random.below(8) {
            0 => most,
            1 => most + 1,
            2 => 0,
            _ => self.random.between(0, most),
        };
        let (line, offset, length) = (self.bent(line), self.bent(offset), self.bent(length));
        self.say(format!("READ,{line},{v},{offset},{length}"));
    }

    fn stamp(&mut self) {
        let line = self.line();
        let v = self.published_version(line);
        let pages = self.bytes_of(line, v) / self.store().page_size;
        let page = self.random.between(0, pages);
        let (line, page) = (self.bent(line), self.bent(page));
        self.say(format!("STAMP,{line},{v},{page}"));
    }

    fn size(&mut self) {
        let line = self.line();
        let v = self.published_version(line);
        let line = self.bent(line);
        self.say(format!("SIZE,{line},{v}"));
    }

    /// A worst count, mostly of numbers inside its limits; also just past them, and of sizes that are no power of two.
    fn worst(&mut self) {
        let r = 1 << self.random.between(1, 12);
        let most = 64.min(r / 2);
        let n = match self.random.below(8) {
            0 => most,
            1 => most + 1,
            2 => self.random.below(r + 1),
            _ => self.random.between(1, most),
        };
        let r = match self.random.below(8) {
            0 => r + 1,
            1 => self.random.below(4_100),
            _ => self.bent(r),
        };
        let n = self.bent(n);
        self.say(format!("WORST,{r},{n}"));
    }

    /// A FORMAT that is refused, most often; the store goes on then.
    fn odd_format(&mut self) {
        let mut fields = [16, 8, 32, 4];
        for _ in 0..2 {
            let at = self.random.below(4) as usize;
            let zero = self.random.one_in(3);
            fields[at] = if zero { 0 } else { self.random.pick(&EDGES) };
        }
        let [s, pages, nodes, updates] = fields;
        self.say(format!("FORMAT,{s},{pages},{nodes},{updates}"));
    }

    /// A line of the right form, its numbers small, at edges or of any length.
    fn any_numbers_line(&mut self) -> String {
        let (word, count) = self.random.pick(&WORDS);
        let mut line = word.to_string();
        for _ in 0..count {
            let number = match self.random.below(8) {
                0 => self.random.pick(&EDGES),
                1 => self.any_number(),
                _ => self.random.below(6),
            };
            line += &format!(",{number}");
        }
        if word == "PUT" {
            line += &format!(",{}", "5a".repeat(self.random.below(40) as usize));
        }
        line
    }

    fn any_numbers(&mut self) {
        let line = self.any_numbers_line();
        self.say(line);
    }

    /// A line with something wrong, or that may still be right.
    fn damaged(&mut self) {
        let mut line = self.any_numbers_line().into_bytes();
        let at = self.random.below(line.len() as u64) as usize;
        let byte = match self.random.below(3) {
            0 => self.random.pick(b",,0123456789aAfF \r\0+-"),
            1 => 128 | self.random.next() as u8,
            _ => (self.random.next() as u8).max(b'\n' + 1),
        };
        match self.random.below(8) {
            0 => line[at] = byte,
            1 => line.insert(at, byte),
            2 => line.push(byte),
            3 => drop(line.remove(at)),
            4 => line.truncate(at),
            5 => line.make_ascii_lowercase(),
            6 => line.extend(vec![byte; LONGEST_LINE - 1 - line.len() % 4]),
            _ => line.extend(b",0"),
        }
        self.say(line);
    }

    /// Brings every ticket as far as it goes, publishes on every line, and reads what is published.
    fn finish(&mut self) {
        let tickets = 1..=self.store().tickets.len() as u64;
        for ticket in self.random.shuffled(tickets) {
            for i in self.empty_slots(ticket) {
                self.put(ticket, i);
            }
            self.assign();
        }
        for ticket in self.unfinished() {
            self.say(format!("WEAVE,{ticket}"));
            if self.random.one_in(8) {
                self.publish();
            }
        }
        for line in 0..self.store().lines.len() as u64 {
            self.publish_all(line);
            let published = self.store().lines[line as usize].published;
            let first = if line == 0 { 6 } else { 2 };
            for v in (0..=published).filter(|v| *v < first || v + 3 > published) {
                self.read_whole(line, v);
            }
        }
    }

    fn publish_all(&mut self, line: u64) {
        let minute = self.free_minute();
        loop {
            self.say(format!("PUBLISH,{line},{minute}"));
            if self.script.answers.last().map_or(true, |a| a == "waiting") {
                return;
            }
        }
    }

    /// A ticket for each node that is not woven, in any order.
    fn unfinished(&mut self) -> Vec<u64> {
        let store = self.model.store.as_ref().expect("FORMAT was accepted");
        let mut tickets = vec![];
        for update in &store.updates {
            let left = store.nodes_left(update);
            tickets.extend(vec![update.ticket; left as usize]);
        }
        self.random.shuffled(tickets.into_iter())
    }

    /// Size, bytes and stamps of a published version, up to a length; and just past its end.
    fn read_whole(&mut self, line: u64, v: u64) {
        self.say(format!("SIZE,{line},{v}"));
        let (s, size) = (self.store().page_size, self.bytes_of(line, v));
        let mut offset = 0;
        while offset < size.min(2_048) {
            let most = (size - offset).min(LONGEST_READ);
            let length = self.random.between(most / 2, most).max(1);
            self.say(format!("READ,{line},{v},{offset},{length}"));
            offset += length;
        }
        for page in (0..size / s).take(20) {
            self.say(format!("STAMP,{line},{v},{page}"));
        }
        self.say(format!("READ,{line},{v},{size},0"));
        self.say(format!("READ,{line},{v},{size},1"));
        self.say(format!("STAMP,{line},{v},{}", size / s));
    }
}
