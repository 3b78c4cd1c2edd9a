//! A store rebuilt into another one, under its running callers.

use crate::calls::areas::{record, Limits, Storage, MOST_OF_UPDATE};
use crate::calls::counters::{Line, LineVersion, PageIndex, Ticket, Version};
use crate::calls::error::Error;
use crate::calls::ffi::Record;
use crate::calls::store::Store;
use crate::shared::instance::Instance;
use crate::shared::log::Log;
use crate::shared::numbering::{Numbering, Numbers};
use crate::shared::Handle;
use crate::Minute;
use std::collections::{BTreeMap, BTreeSet};
use std::ops::Range;
use std::time::{Duration, Instant};

impl<L: Log> Handle<L> {
    /// Rebuilds the store into a new one with these limits, which takes its place for every handle. Kept are the versions named,
    /// the last published one of each line, those that lines begin from, all windows, and all updates in work. Gives the versions that
    /// are kept, of each line in turn. [`rebuild_without`](Handle::rebuild_without) leaves out what writers that died had begun.
    ///
    /// Callers go on with their numbers. A version that is kept reads as it did, by the same number; one that is not is refused with 16; and
    /// the next one has the next number. So no number ever means another version. Tickets in work go on too; those of published versions
    /// are no more, and refused with 7.
    /// Lines keep their numbers, and all that have begun are rebuilt, so that there are no more lines to begin than before.
    ///
    /// It needs no more updates, pages and nodes than the old store has used, and less the fewer versions are kept. Writers wait while it runs;
    /// readers do not, and a filled [`Snapshot`](crate::Snapshot) goes on as it is. The old store's pages stay in memory until the last snapshot
    /// of it is dropped or advanced, which frees them.
    ///
    /// A page that has not changed since has for its stamp the last version kept that is not above the one asked for: a truck with an earlier
    /// version fetches it once more.
    ///
    /// Refused, and nothing has changed: 3, 19; 1 or 2 by the new limits; 11 where their page size is another; 16 or 20 where a version named
    /// is not published; 5, 6 or 15 where the new limits have too little room.
    ///
    /// ```
    /// use pit_host::{Error, Limits, Line, PageIndex, Shared, Store, Version};
    /// # fn main() -> Result<(), Error> {
    /// let (shared, live) = (Shared::new(Store::format(Limits::new(16, 4, 8, 3))?), Line(0));
    /// for fill in 1..=3 {
    ///     shared.update(live, PageIndex(0), &[&[fill; 16]])?;
    /// }
    /// assert_eq!(shared.update(live, PageIndex(0), &[&[4; 16]]), Err(Error::RegisterFull));
    ///
    /// let kept = shared.rebuild(Limits::new(16, 40, 80, 30), &[(live, Version(1))])?;
    /// assert_eq!(kept, [(live, Version(1)), (live, Version(3))]);
    /// assert_eq!(shared.update(live, PageIndex(0), &[&[4; 16]])?, Version(4));
    /// let first_byte = |version| shared.with_view(live, version, PageIndex(0), |page| page[0]);
    /// assert_eq!([1, 2, 3, 4].map(Version).map(first_byte), [Ok(1), Err(Error::NotPublished), Ok(3), Ok(4)]);
    /// # Ok(())
    /// # }
    /// ```
    pub fn rebuild(
        &self,
        limits: Limits,
        versions: &[(Line, Version)],
    ) -> Result<Vec<(Line, Version)>, L::Failure> {
        let rebuilt = self.rebuild_without(limits, versions, &[], Duration::ZERO)?;
        Ok(rebuilt.versions)
    }

    /// [`rebuild`](Handle::rebuild) without those of these tickets on which no call was made for so long: updates that their writers
    /// have begun and given up before they had a version. The pages and records that they took are not rebuilt, and calls on them are
    /// then refused with 7. A ticket that was [abandoned](Handle::abandoned) a moment ago may be in use again: how long it was idle is
    /// looked at when no other call can be made any more, and one that is not left out stays in work. [`Rebuilt`] has those that were
    /// left out. With [`Duration::ZERO`] all that are named are.
    ///
    /// Refused besides, and nothing has changed: 7 where there is no such ticket, 8 where one that was idle for so long has a version,
    /// since later ones need that: it can be [finished](Handle::finish).
    ///
    /// ```
    /// use pit_host::{Error, Limits, Shared, Store};
    /// use std::time::Duration;
    /// # fn main() -> Result<(), Error> {
    /// let shared = Shared::new(Store::format(Limits::new(16, 8, 16, 4))?);
    /// let ticket = shared.begin(6)?;
    /// shared.put(ticket, 0, &[1; 16])?; // and here its writer dies
    /// assert_eq!(shared.room().pages, 2);
    ///
    /// let idle = Duration::ZERO; // in a running store an hour, say
    /// let dead = shared.abandoned(idle);
    /// let dead: Vec<_> = dead.iter().filter(|open| open.version.is_none()).map(|open| open.ticket).collect();
    /// let rebuilt = shared.rebuild_without(shared.limits(), &[], &dead, idle)?;
    /// assert_eq!(rebuilt.left_out, [ticket]);
    /// assert_eq!(shared.room().pages, 8);
    /// assert_eq!(shared.put(ticket, 1, &[1; 16]), Err(Error::NoSuchTicket));
    /// # Ok(())
    /// # }
    /// ```
    pub fn rebuild_without(
        &self,
        limits: Limits,
        versions: &[(Line, Version)],
        tickets: &[Ticket],
        idle: Duration,
    ) -> Result<Rebuilt, L::Failure> {
        self.log.check_process()?;
        let _alone = self.core.keeping();
        let writer = self.core.writer_lock();
        self.log.ready(&self.log.journal())?;
        let (instance, rebuilt) = {
            let old = self.core.reading(); // no writer waits for it: none has the lock
            let mut rebuild = Rebuild::new(&old, limits)?;
            rebuild.choose(versions)?;
            rebuild.leave_out(tickets, idle)?;
            rebuild.make().map_err(|refusal| match refusal {
                Error::RegisterFull | Error::PagesFull | Error::NodesFull => refusal,
                _ => Error::Damaged, // what calls left, the calls accept again
            })?
        };
        self.log.replace(&instance.image())?;
        self.core.replace(instance, writer);
        Ok(rebuilt)
    }
}

/// What a store was rebuilt with, and without.
#[derive(Clone, Debug, PartialEq, Eq)]
#[non_exhaustive]
pub struct Rebuilt {
    /// The versions that are kept, of each line in turn.
    pub versions: Vec<(Line, Version)>,
    /// The tickets that were left out, of those that were named.
    pub left_out: Vec<Ticket>,
}

/// A store on its way into another one. Versions and tickets are the old store's own numbers, but where it is said.
struct Rebuild<'a> {
    old: &'a Instance,
    new: Store,
    /// The old register.
    register: &'a [Record],
    /// The update that a line's own version is, as its place in the register.
    updates: BTreeMap<(u64, u64), usize>,
    /// For each line, those of its own versions that are kept, and their numbers in the new store.
    kept: Vec<BTreeMap<u64, u64>>,
    /// The tickets in work, and their numbers in the new store.
    tickets: BTreeMap<u64, u64>,
    /// Those in work that are left out.
    left_out: BTreeSet<u64>,
}

impl<'a> Rebuild<'a> {
    fn new(old: &'a Instance, limits: Limits) -> Result<Rebuild<'a>, Error> {
        old.store().recent(Line(0))?; // row 3
        let new = Store::format(limits)?;
        let (state, register) = (old.store().state(), old.store().areas().parts().register);
        if limits.page_size != state.size {
            return Err(Error::PageLength);
        }
        if !old.is_sound() {
            return Err(Error::Damaged);
        }
        let name = |record: &Record| LineVersion(record.name);
        let updates = (0..).zip(register).take(state.assigned as usize);
        let updates = updates.map(|(at, r)| ((name(r).line().0, name(r).version().0), at));
        Ok(Rebuild {
            old,
            new,
            register,
            updates: updates.collect(),
            kept: vec![BTreeMap::new(); state.begun as usize],
            tickets: BTreeMap::new(),
            left_out: BTreeSet::new(),
        })
    }

    fn lines(&self) -> Range<u64> {
        0..self.kept.len() as u64
    }

    /// The line on which a version was made.
    fn owner(&self, mut line: u64, version: u64) -> u64 {
        let state = self.old.store().state();
        while line > 0 && version <= state.line(Line(line)).start {
            line = state.line(Line(line)).source; // below it
        }
        line
    }

    fn keep(&mut self, line: u64, version: u64) {
        let owner = self.owner(line, version);
        if version > 0 {
            self.kept[owner as usize].insert(version, 0);
        }
    }

    /// Which versions are kept.
    fn choose(&mut self, versions: &[(Line, Version)]) -> Result<(), Error> {
        for (line, version) in versions {
            let own = self.old.numbers.own_version(*line, *version);
            self.old.store().size(*line, Version(own))?;
            self.keep(line.0, own);
        }
        for line in self.lines() {
            let state = self.old.store().state().line(Line(line));
            self.keep(line, state.published);
            if line > 0 {
                self.keep(state.source, state.start);
            }
        }
        Ok(())
    }

    /// Which tickets are left out: of these the ones that were idle for so long. The time is looked at here, under the writers' lock.
    fn leave_out(&mut self, tickets: &[Ticket], idle: Duration) -> Result<(), Error> {
        let now = Instant::now();
        for ticket in tickets {
            let own = self.old.numbers.own_ticket(*ticket);
            let given = (1..=self.old.store().state().tickets).contains(&own);
            let record = self.old.record(own).filter(|_| given);
            let update = record.ok_or(Error::NoSuchTicket)?.update;
            match self.old.idle(own, now) {
                Some(idle_for) if idle_for < idle => (), // somebody is at work on it
                _ if update > 0 => return Err(Error::OutOfTurn),
                _ => drop(self.left_out.insert(own)),
            }
        }
        Ok(())
    }

    /// Makes the new store.
    fn make(mut self) -> Result<(Instance, Rebuilt), Error> {
        self.versions()?;
        self.in_work()?;
        self.end()
    }

    /// The number in the new store of a version of a line that is kept.
    fn new_number(&self, line: u64, version: u64) -> Result<u64, Error> {
        if version == 0 {
            return Ok(0);
        }
        let kept = &self.kept[self.owner(line, version) as usize];
        kept.get(&version).copied().ok_or(Error::Damaged)
    }

    /// Makes the versions that are kept, line by line.
    fn versions(&mut self) -> Result<(), Error> {
        for line in self.lines() {
            let state = self.old.store().state().line(Line(line));
            if line > 0 {
                let start = self.new_number(state.source, state.start)?;
                self.new.branch(Line(state.source), Version(start))?;
            }
            let mut before = state.start;
            for version in self.kept[line as usize].keys().copied().collect::<Vec<_>>() {
                self.version(line, before, version)?;
                let number = self.new.recent(Line(line))?.0;
                self.kept[line as usize].insert(version, number);
                before = version;
            }
        }
        self.new
            .set_windows(self.old.store().windows().to_string())?;
        Ok(())
    }

    /// Makes a version out of the one before it that is kept: with the pages that the updates between them wrote.
    fn version(&mut self, line: u64, before: u64, version: u64) -> Result<(), Error> {
        let mut written = Vec::new();
        for between in before + 1..=version {
            let update = self.updates.get(&(line, between)).ok_or(Error::Damaged)?;
            let record = &self.register[*update];
            written.push(record.f..record.last + 1);
        }
        for pages in rows(written) {
            self.update(line, version, pages)?;
        }
        Ok(())
    }

    /// One update of the new store, published: these pages of a version.
    fn update(&mut self, line: u64, version: u64, pages: Range<u64>) -> Result<(), Error> {
        let ticket = self.new.begin(pages.end - pages.start)?;
        for (i, page) in (0..).zip(pages.clone()) {
            let bytes = self
                .old
                .store()
                .view(Line(line), Version(version), PageIndex(page))?;
            self.new.put(ticket, i, bytes)?;
        }
        let first = PageIndex(pages.start);
        let assigned = self.new.write(Line(line), ticket, first)?;
        for _ in 0..assigned.nodes {
            self.new.weave(ticket)?;
        }
        let published = self.new.publish(Line(line), Minute(0))?;
        published.version().map(drop).ok_or(Error::Damaged)
    }

    /// Takes over the updates in work: those without a version, and those whose version is not published.
    fn in_work(&mut self) -> Result<(), Error> {
        let state = self.old.store().state();
        let mut assigned = BTreeMap::new();
        for own in 1..=state.tickets {
            let begun = record(self.register, own).ok_or(Error::Damaged)?;
            if begun.update > 0 {
                let update = record(self.register, begun.update).ok_or(Error::Damaged)?;
                let name = LineVersion(update.name);
                if name.version().0 <= state.line(name.line()).published {
                    continue;
                }
                assigned.insert(begun.update, (own, update));
            }
            if !self.left_out.contains(&own) {
                self.ticket(own, begun)?;
            }
        }
        for (own, update) in assigned.into_values() {
            let ticket = Ticket(self.tickets[&own]);
            let line = LineVersion(update.name).line();
            self.new.write(line, ticket, PageIndex(update.f))?;
            for _ in 0..update.woven {
                self.new.weave(ticket)?;
            }
        }
        Ok(())
    }

    /// A ticket in work, with those of its pages that are put.
    fn ticket(&mut self, own: u64, record: &Record) -> Result<(), Error> {
        let ticket = self.new.begin(record.n)?;
        for i in (0..record.n).filter(|i| record.is_put(*i)) {
            let number = record.page_number(i);
            let page = number.and_then(|number| self.old.epoch.pages.page(number));
            self.new.put(ticket, i, page.ok_or(Error::Damaged)?)?;
        }
        self.tickets.insert(own, ticket.0);
        Ok(())
    }

    /// The new store with its callers' numbers; and what it was rebuilt with, as callers count.
    fn end(self) -> Result<(Instance, Rebuilt), Error> {
        let numbers = &self.old.numbers;
        let left_out = self.left_out.iter().map(|own| numbers.ticket(*own));
        let left_out = left_out.collect();
        let (mut lines, mut versions) = (Vec::new(), Vec::new());
        for line in self.lines() {
            let kept = self.numbers_of(line)?;
            versions.extend(kept.iter().map(|k| (Line(line), Version(k.0))));
            let (callers, last) = kept.last().copied().unwrap_or_default();
            lines.push(Numbers::new(kept, last, callers).ok_or(Error::Damaged)?);
        }
        let tickets = self.tickets.iter();
        let tickets = tickets.map(|(own, new)| (numbers.ticket(*own).0, *new));
        let last = numbers.last_ticket(self.old.store().state().tickets);
        let tickets = Numbers::new(tickets.collect(), self.new.state().tickets, last);
        let tickets = tickets.ok_or(Error::Damaged)?;
        let numbers = Numbering::rebuilt(tickets, lines, self.old.mix(), &self.new.state());
        let mut instance = Instance::new(self.new, numbers);
        for (own, new) in &self.tickets {
            instance.set_touched(*new, self.old.touched(*own));
        }
        Ok((instance, Rebuilt { versions, left_out }))
    }

    /// The versions of a line that are kept, those that it shares included, up to its last published one: as callers count, and in the new store.
    fn numbers_of(&self, line: u64) -> Result<Vec<(u64, u64)>, Error> {
        let state = self.old.store().state();
        let (mut at, mut upto) = (line, state.line(Line(line)).published);
        let mut kept = Vec::new();
        loop {
            let of_line = self.kept[at as usize].range(..=upto).rev();
            kept.extend(of_line.map(|(own, new)| (*own, *new)));
            if at == 0 {
                break;
            }
            let state = state.line(Line(at));
            (at, upto) = (state.source, upto.min(state.start));
        }
        kept.reverse();
        let callers = |own| self.old.numbers.version(Line(line), own).0;
        Ok(kept
            .into_iter()
            .map(|(own, new)| (callers(own), new))
            .collect())
    }
}

/// The pages that updates wrote, each once, in rows that an update has room for. Each row is a part of what one of them wrote, or parts of
/// several that follow each other: so there are no more rows than updates, and they make no more nodes, which rows cut anywhere would.
fn rows(mut written: Vec<Range<u64>>) -> Vec<Range<u64>> {
    written.sort_by_key(|pages| pages.start);
    let mut rows: Vec<Range<u64>> = Vec::new();
    for pages in written {
        let end = rows.last().map_or(0, |row| row.end);
        let rest = pages.start.max(end)..pages.end;
        match rows.last_mut() {
            _ if rest.is_empty() => (),
            Some(row) if end == rest.start && rest.end - row.start <= MOST_OF_UPDATE => {
                row.end = rest.end
            }
            _ => rows.push(rest),
        }
    }
    rows
}

#[cfg(test)]
mod tests {
    use super::*;
    use crate::shared::Shared;

    /// Between the look at what is abandoned and the rebuild one of the writers goes on: its ticket stays in work, and the other's is left
    /// out. With a version it stays too, and is no reason to refuse.
    #[test]
    fn a_ticket_that_is_in_use_again_stays_in_work() {
        let limits = Limits::new(16, 40, 80, 8);
        let shared = Shared::new(Store::format(limits).expect("limits in range"));
        let (live, page, hour) = (Line(0), [7; 16], Duration::from_secs(3_600));
        let [put, assigned, dead] = [1, 1, 2].map(|n| shared.begin(n).expect("room"));
        shared.put(assigned, 0, &page).expect("a page of it");
        for ticket in [put, assigned, dead] {
            let then = Instant::now().checked_sub(hour);
            shared.core.writing().set_touched(ticket.0, then);
        }
        let abandoned = shared.abandoned(hour).into_iter();
        let abandoned: Vec<Ticket> = abandoned.map(|open| open.ticket).collect();
        assert_eq!(abandoned, [put, assigned, dead]);

        shared.put(put, 0, &page).expect("a page of it");
        shared.append(live, assigned).expect("it is put");
        let rebuilt = shared.rebuild_without(limits, &[], &abandoned, hour);
        let left_out = rebuilt.map(|rebuilt| rebuilt.left_out);
        assert_eq!(left_out, Ok(vec![dead]));
        assert_eq!(shared.finish(assigned), Ok(Version(1)));
        let next = shared.append(live, put).map(|assigned| assigned.version);
        assert_eq!(next, Ok(Version(2)));
        assert_eq!(shared.put(dead, 0, &page), Err(Error::NoSuchTicket));
    }
}
