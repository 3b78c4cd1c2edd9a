//! The one writer at a time.

use super::Handle;
use crate::calls::counters::{Line, Minute, PageIndex, Ticket, Version};
use crate::calls::error::Error;
use crate::calls::store::{Assigned, Node, Published};
use crate::calls::windows::WindowsError;
use crate::disk::journal::Call;
use crate::shared::instance::Instance;
use crate::shared::log::Log;
use std::sync::{MutexGuard, RwLockWriteGuard};
use std::time::Instant;

/// The one writer at a time: the store's lock, and the entries of the calls that were accepted under it.
pub struct Writer<'a, L: Log> {
    handle: &'a Handle<L>,
    // given back before the lock of the writers
    instance: RwLockWriteGuard<'a, Instance>,
    writer: MutexGuard<'a, ()>,
    /// What the entries go to, to the end: also where another journal takes its place before they are kept.
    journal: L::Journal,
    /// The time of all calls on tickets: the clock is looked at once, since each look takes as long as a short call.
    now: Option<Instant>,
    /// The last entry, where there is one.
    last: Option<u64>,
    /// Which lines readers may then see up to where.
    shown: Vec<(Line, Version)>,
    /// Whether something is to be on the disk before it is relied on: what readers see, and windows.
    relied_on: bool,
}

impl<L: Log> Writer<'_, L> {
    fn took(&mut self, call: &Call<'_>) {
        self.last = Some(self.handle.log.take(&self.journal, call));
    }

    /// The same of a call on a ticket.
    fn took_of(&mut self, ticket: u64, call: &Call<'_>) {
        let now = *self.now.get_or_insert_with(Instant::now);
        self.instance.set_touched(ticket, Some(now));
        self.took(call);
    }

    pub fn instance(&self) -> &Instance {
        &self.instance
    }

    pub fn begin(&mut self, n: u64) -> Result<Ticket, Error> {
        let ticket = self.instance.begin(n)?;
        self.took_of(ticket, &Call::Begin { n });
        Ok(self.instance.numbers.ticket(ticket))
    }

    pub fn put(&mut self, ticket: Ticket, i: u64, bytes: &[u8]) -> Result<(), Error> {
        let ticket = self.instance.numbers.own_ticket(ticket);
        self.instance.put(ticket, i, bytes)?;
        self.took_of(ticket, &Call::Put { ticket, i, bytes });
        Ok(())
    }

    /// ASSIGN: as a write, or where it says no page as an append.
    pub fn assign(
        &mut self,
        line: Line,
        ticket: Ticket,
        first: Option<PageIndex>,
    ) -> Result<Assigned, Error> {
        let ticket = self.instance.numbers.own_ticket(ticket);
        let mut assigned = self.instance.assign(line, ticket, first)?;
        let call = match first {
            Some(first) => Call::Write {
                line: line.0,
                ticket,
                first: first.0,
            },
            None => Call::Append {
                line: line.0,
                ticket,
            },
        };
        self.took_of(ticket, &call);
        assigned.version = self.instance.numbers.version(line, assigned.version.0);
        Ok(assigned)
    }

    /// Up to so many WEAVEs, until no node is left; gives the last node.
    pub fn weave(&mut self, ticket: Ticket, most: u64) -> Result<Node, Error> {
        let ticket = self.instance.numbers.own_ticket(ticket);
        let mut node = self.instance.weave(ticket)?;
        let (mut count, mut woven) = (1, Ok(node));
        while count < most && node.rest > 0 {
            woven = self.instance.weave(ticket);
            match woven {
                Ok(next) => node = next,
                Err(_) => break, // over damaged areas
            }
            count += 1;
        }
        self.took_of(ticket, &Call::Weave { ticket, count });
        woven
    }

    pub fn publish(&mut self, line: Line, minute: Minute) -> Result<Published, Error> {
        let published = self.instance.publish(line, minute)?;
        Ok(match published {
            Published::Now(own) => {
                self.took(&Call::Publish {
                    line: line.0,
                    minute: minute.0,
                });
                let version = self.instance.numbers.version(line, own.0);
                self.show(line, version);
                Published::Now(version)
            }
            other => other,
        })
    }

    pub fn branch(&mut self, line: Line, version: Version) -> Result<Line, Error> {
        let own = self.handle.core.own(&self.instance, line, version)?;
        let branched = self.instance.branch(line, own)?;
        self.took(&Call::Branch {
            line: line.0,
            version: own.0,
        });
        self.show(branched, version);
        Ok(branched)
    }

    pub fn set_windows(&mut self, text: &[u8]) -> Result<(), WindowsError> {
        self.instance.set_windows(text)?;
        self.took(&Call::SetWindows { text });
        self.relied_on = true;
        Ok(())
    }

    /// A line's readers may then see it up to this version.
    fn show(&mut self, line: Line, version: Version) {
        match self.shown.last_mut() {
            Some((of, last)) if *of == line => *last = version,
            _ => self.shown.push((line, version)),
        }
        self.relied_on = true;
    }

    /// The same of a version that another writer may have published, and not yet shown: this one ends only when all that was taken
    /// before it is kept too.
    pub fn show_others(&mut self, line: Line, version: Version) {
        self.last = Some(self.handle.log.last(&self.journal));
        self.show(line, version);
    }

    /// Gives back the lock, and returns when the entries are kept and readers see what there is to see.
    pub fn commit(self) -> Result<(), L::Failure> {
        let Writer {
            handle,
            instance,
            writer,
            journal,
            last,
            shown,
            relied_on,
            ..
        } = self;
        let visible = &handle.core.visible;
        let show = || {
            let raise = |(line, version): &(Line, Version)| visible.raise(*line, *version);
            shown.iter().for_each(raise)
        };
        if L::AT_ONCE {
            show();
        }
        drop((instance, writer));
        if let (false, Some(last)) = (L::AT_ONCE, last) {
            handle.log.keep(&journal, last, relied_on)?;
            show();
        }
        if !shown.is_empty() {
            visible.notify();
        }
        Ok(())
    }
}

impl<L: Log> Handle<L> {
    pub(crate) fn writer(&self) -> Result<Writer<'_, L>, L::Failure> {
        self.log.check_process()?;
        let writer = self.core.writer_lock();
        let journal = self.log.journal();
        self.log.ready(&journal)?;
        Ok(Writer {
            handle: self,
            instance: self.core.writing(),
            writer,
            journal,
            now: None,
            last: None,
            shown: Vec::new(),
            relied_on: false,
        })
    }
}
