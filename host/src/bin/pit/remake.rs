//! A store made again from what its register says of its updates, by the calls that make them. If it is one that calls left, it
//! is the same to the last byte: page numbers go by the tickets, node places and nodes by the order of ASSIGN.

use pit_host::{
    Error, Line, LineVersion, Minute, PageIndex, Record, State, Store, Ticket, Version,
};
use std::collections::BTreeMap;

/// The store that the updates of this one leave.
pub fn remade(store: &Store) -> Result<Store, Error> {
    let mut remake = Remake::new(store)?;
    remake.tickets()?;
    remake.updates()?;
    remake.end()?;
    Ok(remake.new)
}

struct Remake<'a> {
    old: &'a Store,
    state: State,
    register: &'a [Record],
    new: Store,
    /// The update that a line's own version is, counted from 1.
    updates: BTreeMap<(u64, u64), u64>,
}

impl<'a> Remake<'a> {
    fn new(old: &'a Store) -> Result<Remake<'a>, Error> {
        let (state, register) = (old.state(), old.areas().register());
        let named = |update: u64, record: &Record| {
            let name = LineVersion(record.name);
            ((name.line().0, name.version().0), update)
        };
        let updates = (1..=state.assigned).zip(register);
        Ok(Remake {
            old,
            state,
            register,
            new: Store::format(old.limits())?,
            updates: updates.map(|(update, r)| named(update, r)).collect(),
        })
    }

    fn record(&self, number: u64) -> Result<&'a Record, Error> {
        let at = number
            .checked_sub(1)
            .and_then(|at| usize::try_from(at).ok());
        at.and_then(|at| self.register.get(at))
            .ok_or(Error::Damaged)
    }

    /// Begins every ticket, and puts those of its pages that are put.
    fn tickets(&mut self) -> Result<(), Error> {
        for number in 1..=self.state.tickets {
            let record = self.record(number)?;
            let ticket = self.new.begin(record.n)?;
            let is_put = |i: &u64| record.put >> i & 1 == 1;
            for i in (0..64).filter(is_put) {
                let page = record
                    .number
                    .checked_add(i)
                    .and_then(|page| self.page(page));
                self.new.put(ticket, i, page.ok_or(Error::Damaged)?)?;
            }
        }
        Ok(())
    }

    fn page(&self, number: u64) -> Option<&'a [u8]> {
        let size = usize::try_from(self.state.size).ok()?;
        let begin = usize::try_from(number).ok()?.checked_mul(size)?;
        self.old.areas().pages().get(begin..)?.get(..size)
    }

    /// Gives all updates their versions, in the order in which they got them.
    fn updates(&mut self) -> Result<(), Error> {
        for number in 1..=self.state.assigned {
            let record = self.record(number)?;
            let line = LineVersion(record.name).line();
            self.begin_lines(line.0)?;
            self.new
                .write(line, Ticket(record.ticket), PageIndex(record.f))?;
        }
        Ok(())
    }

    /// Begins the lines up to this one that have not begun. What they begin from was published before, and so has its version already.
    fn begin_lines(&mut self, last: u64) -> Result<(), Error> {
        while self.new.state().begun <= last {
            let line = self.state.line(Line(self.new.state().begun));
            self.publish(Line(line.source), line.start)?;
            self.new.branch(Line(line.source), Version(line.start))?;
        }
        Ok(())
    }

    /// Publishes a line up to a version.
    fn publish(&mut self, line: Line, version: u64) -> Result<(), Error> {
        for next in self.new.recent(line)?.0 + 1..=version {
            let update = self.updates.get(&(line.0, next)).ok_or(Error::Damaged)?;
            self.weave(*update)?;
            let published = self.new.publish(line, Minute(0))?;
            published.version().ok_or(Error::Damaged)?;
        }
        Ok(())
    }

    /// Weaves an update as far as it is woven.
    fn weave(&mut self, update: u64) -> Result<(), Error> {
        let record = self.record(update)?;
        let at = update as usize - 1; // a record's place
        let woven = self.new.areas().register()[at].woven;
        (woven..record.woven).try_for_each(|_| self.new.weave(Ticket(record.ticket)).map(drop))
    }

    /// What is left: lines without updates, nodes, versions, windows.
    fn end(&mut self) -> Result<(), Error> {
        self.begin_lines(self.state.begun.saturating_sub(1))?;
        for update in 1..=self.state.assigned {
            self.weave(update)?;
        }
        for line in (0..self.state.begun).map(Line) {
            self.publish(line, self.state.line(line).published)?;
        }
        self.new.set_windows(self.old.windows().to_string())?;
        Ok(())
    }
}
