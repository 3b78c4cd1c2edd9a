//! The store in memory that the same calls leave, entry by entry of the journal.

use super::call::{assigned, make_on, refusal, words, Answer, Call, Update, WEEK};
use pit_host::{
    Error, Failure, Handle, Limits, Line, Log, Minute, PageIndex, Shared, Store, Ticket, Version,
};

/// A store in memory, and how many entries a journal of its calls has.
pub struct Model {
    pub store: Shared,
    pub entries: u64,
    /// The last entry that is relied on: it shows readers something new, or sets windows.
    pub relied_on: u64,
    /// The stores after each entry, from none on, where that is wanted: also that which was rebuilt there.
    pub after: Option<Vec<Vec<Store>>>,
    /// The entry after which a call is broken off.
    upto: u64,
}

impl Model {
    pub fn new(store: Store) -> Model {
        Model {
            store: Shared::new(store),
            entries: 0,
            relied_on: 0,
            after: None,
            upto: u64::MAX,
        }
    }

    /// One that keeps the store after each entry.
    pub fn keeping(store: Store) -> Model {
        let after = Some(vec![vec![store.clone()]]);
        Model {
            after,
            ..Model::new(store)
        }
    }

    /// Makes a call, and gives its answer.
    pub fn make(&mut self, call: &Call) -> String {
        self.upto = u64::MAX;
        self.made(call).expect("not broken off")
    }

    /// Makes a call as far as it goes up to an entry.
    pub fn make_up_to(&mut self, call: &Call, entry: u64) {
        self.upto = entry;
        let _ = self.made(call);
    }

    fn made(&mut self, call: &Call) -> Option<String> {
        match call {
            Call::Update(Update { minute, .. }) | Call::Finish(_, minute) if minute.0 >= WEEK => {
                Some(refusal(Error::NoSuchMinute))
            }
            Call::Update(update) => self.update(update),
            Call::Finish(ticket, minute) => self.finish(*ticket, *minute),
            call => {
                let answer = make_on(&self.store, call);
                let is_entry = is_entry(call, &answer);
                if let (Call::Rebuild(..), Some(after)) = (call, &mut self.after) {
                    let last = after.last_mut().expect("that of no entry");
                    last.push(self.store.to_store());
                }
                if is_entry {
                    self.entry(); // the only one of this call
                    if call.is_relied_on() {
                        self.relied_on = self.entries;
                    }
                }
                Some(words(answer).expect("nothing fails in memory"))
            }
        }
    }

    /// Whether a store is one after so many entries.
    pub fn had(&self, entries: u64, store: &Store) -> bool {
        let after = self.after.as_ref().expect("one that keeps them");
        let there = after.get(entries as usize);
        there.map_or(false, |stores| stores.contains(store))
    }

    /// One more entry; none where the call is broken off after it.
    fn entry(&mut self) -> Option<()> {
        self.entries += 1;
        if let Some(after) = &mut self.after {
            after.push(vec![self.store.to_store()]);
        }
        (self.entries != self.upto).then_some(())
    }

    /// What is left of a ticket in work. Its nodes are one entry.
    fn finish(&mut self, ticket: Ticket, minute: Minute) -> Option<String> {
        let mut open = self.store.open_tickets().into_iter();
        let open = open.find(|open| open.ticket == ticket);
        let (line, version) = match open.and_then(|open| open.version) {
            None => return Some(refusal(self.store.weave(ticket).unwrap_err())),
            Some(version) => version,
        };
        while self.store.weave(ticket).unwrap().rest > 0 {}
        self.entry()?;
        self.publish_due(line, minute)?;
        Some(shown(version))
    }

    /// A whole update by its calls.
    fn update(&mut self, update: &Update) -> Option<String> {
        let n = update.pages.len() as u64;
        if let Err(refused) = assigned(&mut self.store.to_store(), update) {
            return Some(refusal(refused));
        }
        let ticket = self.store.begin(n).unwrap();
        self.entry()?;
        for (i, bytes) in (0..).zip(&update.pages) {
            self.store.put(ticket, i, bytes).unwrap();
            self.entry()?;
        }
        let assigned = match update.at {
            Some(first) => self.store.write(update.line, ticket, first),
            None => self.store.append(update.line, ticket),
        };
        let assigned = assigned.unwrap();
        self.entry()?;
        while self.store.weave(ticket).unwrap().rest > 0 {}
        self.entry()?;
        self.publish_due(update.line, update.minute)?;
        Some(shown(assigned.version))
    }

    fn publish_due(&mut self, line: Line, minute: Minute) -> Option<()> {
        while self
            .store
            .publish(line, minute)
            .unwrap()
            .version()
            .is_some()
        {
            self.relied_on = self.entries + 1;
            self.entry()?;
        }
        Some(())
    }
}

/// Whether a call of one entry at most was accepted and changed the store.
fn is_entry(call: &Call, answer: &Result<Answer, Failure>) -> bool {
    match (call, answer) {
        (Call::Rebuild(..) | Call::Checkpoint | Call::Sync, _) => false,
        (_, Ok(Answer::Published(published))) => published.version().is_some(),
        _ => answer.is_ok(),
    }
}

fn shown(version: Version) -> String {
    format!("{:?}", Answer::Version(version))
}

/// All that a store's callers can find out of it by their numbers, but for the bytes: these `to_store` has.
pub fn as_seen<L: Log>(store: &Handle<L>) -> Vec<String> {
    let limits: Limits = store.limits();
    let mut seen = vec![format!("{limits:?} {:?}", store.room())];
    for line in (0..16).map(Line) {
        let recent = match store.recent(line) {
            Ok(recent) => recent,
            Err(_) => break,
        };
        let stamp = |version| store.stamp(line, Version(version), PageIndex(0)).ok();
        let stamps: Vec<Option<Version>> = (0..=recent.0 + 1).map(stamp).collect();
        seen.push(format!("line {line} up to {recent}: {stamps:?}"));
    }
    let open = store.open_tickets();
    let parts = |o: &pit_host::OpenTicket| (o.ticket, o.pages, o.put, o.version, o.nodes_left);
    seen.extend(open.iter().map(|open| format!("{:?}", parts(open))));
    seen
}
