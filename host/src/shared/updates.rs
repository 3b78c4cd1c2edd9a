//! Whole updates in one call, and those that somebody has begun and not finished.

use crate::calls::areas::{Storage, MOST_OF_UPDATE, MOST_PAGES};
use crate::calls::counters::{Line, Minute, PageIndex, Ticket, Version};
use crate::calls::error::Error;
use crate::calls::ffi::{node_count, State};
use crate::shared::instance::Instance;
use crate::shared::log::Log;
use crate::shared::{Handle, Writer};
use std::time::{Duration, Instant};

/// An update in work: begun, and its tree not yet woven whole.
#[derive(Clone, Copy, Debug, PartialEq, Eq)]
#[non_exhaustive]
pub struct OpenTicket {
    /// The ticket.
    pub ticket: Ticket,
    /// How many pages the update has.
    pub pages: u64,
    /// How many of them are put.
    pub put: u64,
    /// The line and version that it got, where it has one. Later versions of that line wait for it.
    pub version: Option<(Line, Version)>,
    /// How many of its nodes are left to weave, where it has a version.
    pub nodes_left: u64,
    /// For how long no call was made on it; since the store was opened or loaded, where that is later.
    pub idle: Duration,
}

impl<L: Log> Handle<L> {
    /// A whole update in one call: these pages of a line, from page `at` on, as its next version. It begins, puts, assigns
    /// and weaves, and publishes what is then due, by the [clock](Handle::set_clock): the version itself where all before it are
    /// complete, and those that waited for it; nothing inside a window, after which [`publish_due`](Handle::publish_due) does. Gives the
    /// version.
    ///
    /// It is refused as the calls would be, before any of them is made, so that a refused one has taken no room:
    /// 3, 4, 5, 6, 11, 20, 13, 14, 15; and 22 where the clock gives no minute of the week. Over damaged areas also 19, which may
    /// have taken some.
    ///
    /// ```
    /// use pit_host::{Error, Limits, Line, PageIndex, Shared, Store, Version};
    /// # fn main() -> Result<(), Error> {
    /// let shared = Shared::new(Store::format(Limits::new(16, 8, 16, 4))?);
    /// assert_eq!(shared.append_pages(Line(0), &[&[1; 16], &[2; 16]])?, Version(1));
    /// assert_eq!(shared.update(Line(0), PageIndex(1), &[&[3; 16]])?, Version(2));
    /// assert_eq!(shared.recent(Line(0))?, Version(2));
    /// assert_eq!(shared.update(Line(0), PageIndex(3), &[&[4; 16]]), Err(Error::PastEnd));
    /// # Ok(())
    /// # }
    /// ```
    pub fn update(
        &self,
        line: Line,
        at: PageIndex,
        pages: &[&[u8]],
    ) -> Result<Version, L::Failure> {
        self.whole(line, Some(at), pages)
    }

    /// [`update`](Handle::update) at the end of the line's last assigned version.
    pub fn append_pages(&self, line: Line, pages: &[&[u8]]) -> Result<Version, L::Failure> {
        self.whole(line, None, pages)
    }

    fn whole(
        &self,
        line: Line,
        at: Option<PageIndex>,
        pages: &[&[u8]],
    ) -> Result<Version, L::Failure> {
        let minute = self.core.minute()?;
        let mut writer = self.writer()?;
        check(writer.instance(), line, at, pages)?;
        let answer = put_together(&mut writer, line, at, pages);
        let due = answer.and_then(|version| writer.publish_due(line, minute).map(|_| version));
        writer.commit()?; // what was accepted is kept, also where areas are damaged and a later call was refused
        Ok(due?)
    }

    /// The updates in work, in the order of their tickets.
    pub fn open_tickets(&self) -> Vec<OpenTicket> {
        let (now, instance) = (Instant::now(), self.core.reading());
        let records = instance.store().areas().parts().register.len() as u64;
        let tickets = 1..=instance.store().state().tickets.min(records);
        tickets
            .filter_map(|own| open_ticket(&instance, own, now))
            .collect()
    }

    /// Those updates in work on which no call was made for so long. One that has a version holds up all later versions of its line,
    /// until somebody [finishes](Handle::finish) it.
    pub fn abandoned(&self, since: Duration) -> Vec<OpenTicket> {
        let mut open = self.open_tickets();
        open.retain(|open| open.idle >= since);
        open
    }

    /// Weaves what is left of a ticket's version, whoever began it, and publishes what is then due, by the
    /// [clock](Handle::set_clock). Gives the version. Where nothing is left, it only publishes. Refused: 3, 7, 19, 22, and 8 where it
    /// has no version yet.
    ///
    /// ```
    /// use pit_host::{Limits, Line, Shared, Store, Version};
    /// # fn main() -> Result<(), pit_host::Error> {
    /// let shared = Shared::new(Store::format(Limits::new(16, 8, 16, 4))?);
    /// let ticket = shared.begin(1)?;
    /// shared.put(ticket, 0, &[1; 16])?;
    /// shared.append(Line(0), ticket)?; // and here its writer dies
    /// assert_eq!(shared.append_pages(Line(0), &[&[2; 16]])?, Version(2));
    /// assert_eq!(shared.recent(Line(0))?, Version(0)); // version 2 waits for version 1
    /// for left in shared.open_tickets() {
    ///     shared.finish(left.ticket)?;
    /// }
    /// assert_eq!(shared.recent(Line(0))?, Version(2));
    /// # Ok(())
    /// # }
    /// ```
    pub fn finish(&self, ticket: Ticket) -> Result<Version, L::Failure> {
        let minute = self.core.minute()?;
        let mut writer = self.writer()?;
        let finished = writer.finish(ticket, minute);
        writer.commit()?; // as of a whole update
        Ok(finished?)
    }

    /// Publishes all that is due on a line, by the [clock](Handle::set_clock), and gives its last published version. For when a window has
    /// ended, and for a store that was opened or loaded: its writers may have ended between the last WEAVE and PUBLISH. Refused: 3, 20,
    /// 22, 19.
    ///
    /// ```
    /// use pit_host::{Limits, Line, Minute, Shared, Store, Version};
    /// # fn main() -> Result<(), Box<dyn std::error::Error>> {
    /// let (shared, live) = (Shared::new(Store::format(Limits::new(16, 8, 16, 4))?), Line(0));
    /// shared.set_windows("600,660\n")?;
    /// shared.set_clock(|| Minute(610));
    /// shared.append_pages(live, &[&[1; 16]])?;
    /// assert_eq!(shared.publish_due(live)?, Version(0)); // held
    /// shared.set_clock(|| Minute(660));
    /// assert_eq!(shared.publish_due(live)?, Version(1));
    /// # Ok(())
    /// # }
    /// ```
    pub fn publish_due(&self, line: Line) -> Result<Version, L::Failure> {
        let minute = self.core.minute()?;
        let mut writer = self.writer()?;
        let last = writer.publish_due(line, minute);
        if let Ok(last) = last {
            writer.show_others(line, last);
        }
        writer.commit()?;
        Ok(last?)
    }

    /// Waits until a version is published on a line, for readers to see. One that nobody ever completes, or publishes after a window has
    /// ended, is waited for for ever.
    ///
    /// Of a store in a folder it ends with the journal's failure, at once, where that comes before the version; and with
    /// [`FileError::Closed`](crate::FileError) where the folder is closed. A store in memory refuses nothing.
    pub fn wait_published(&self, line: Line, version: Version) -> Result<(), L::Failure> {
        let check = || self.log.check_awaited();
        let waited = self.core.visible.wait(line, version, None, check);
        waited.map(drop)
    }

    /// The same for at most so long; tells whether the version is published.
    pub fn wait_published_for(
        &self,
        line: Line,
        version: Version,
        most: Duration,
    ) -> Result<bool, L::Failure> {
        let until = Instant::now().checked_add(most);
        let check = || self.log.check_awaited();
        self.core.visible.wait(line, version, until, check)
    }
}

impl<L: Log> Writer<'_, L> {
    /// Publishes all versions of a line that are due, and gives the last published one.
    fn publish_due(&mut self, line: Line, minute: Minute) -> Result<Version, Error> {
        while self.publish(line, minute)?.version().is_some() {}
        let own = self.instance().store().recent(line)?;
        Ok(self.instance().numbers.version(line, own.0))
    }

    /// Weaves what is left of a ticket's version, and publishes what is then due on its line.
    fn finish(&mut self, ticket: Ticket, minute: Minute) -> Result<Version, Error> {
        let own = self.instance().numbers.own_ticket(ticket);
        let is_woven = self.instance().nodes_left(own) == Some(0);
        if !is_woven {
            self.weave(ticket, u64::MAX)?;
        }
        let (line, version) = self.instance().version_of(own).ok_or(Error::Damaged)?;
        let last = self.publish_due(line, minute)?;
        if is_woven {
            self.show_others(line, last);
        }
        Ok(version)
    }
}

/// The calls of an update that were found to be accepted, up to the last WEAVE.
fn put_together<L: Log>(
    writer: &mut Writer<'_, L>,
    line: Line,
    at: Option<PageIndex>,
    pages: &[&[u8]],
) -> Result<Version, Error> {
    let ticket = writer.begin(pages.len() as u64)?;
    for (i, page) in (0..).zip(pages) {
        writer.put(ticket, i, page)?;
    }
    let assigned = writer.assign(line, ticket, at)?;
    writer.weave(ticket, assigned.nodes)?;
    Ok(assigned.version)
}

/// Refuses an update as the first of its calls that would be refused, by the rows of BEGIN, PUT and ASSIGN.
fn check(
    instance: &Instance,
    line: Line,
    at: Option<PageIndex>,
    pages: &[&[u8]],
) -> Result<(), Error> {
    instance.store().recent(Line(0))?; // row 3
    let s: State = instance.store().state();
    let n = pages.len() as u64;
    let blob = s.line(line).blob;
    let first = at.map_or(blob, |at| at.0);
    let end = first.saturating_add(n);
    let nodes = || node_count(first, n, blob.max(end));
    let rows = [
        (n == 0 || n > MOST_OF_UPDATE, Error::UpdateSize),
        (s.tickets >= s.updates, Error::RegisterFull),
        (s.pages.saturating_sub(s.taken) < n, Error::PagesFull),
        (
            pages.iter().any(|page| page.len() as u64 != s.size),
            Error::PageLength,
        ),
        (line.0 >= s.begun, Error::NoSuchLine),
        (first > blob, Error::PastEnd),
        (end > MOST_PAGES, Error::BlobFull),
    ];
    match rows.iter().find(|(applies, _)| *applies) {
        Some((_, refusal)) => Err(*refusal),
        None if s.nodes.saturating_sub(s.places) < nodes() => Err(Error::NodesFull),
        None => Ok(()),
    }
}

/// A ticket, by the store's own number, if its update is in work.
fn open_ticket(instance: &Instance, own: u64, now: Instant) -> Option<OpenTicket> {
    let begun = instance.record(own)?;
    let left = instance.nodes_left(own);
    if left == Some(0) {
        return None;
    }
    Some(OpenTicket {
        ticket: instance.numbers.ticket(own),
        pages: begun.n,
        put: begun.put.count_ones().into(),
        version: instance.version_of(own),
        nodes_left: left.unwrap_or(0),
        idle: instance.idle(own, now)?,
    })
}
