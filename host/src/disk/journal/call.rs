//! The calls that change a store.

use super::entry::Numbers;
use crate::calls::areas::Storage;
use crate::calls::counters::{Line, Minute, PageIndex, Ticket, Version};
use crate::calls::error::Error;
use crate::calls::store::{Published, Store};
use std::fmt;

/// A call that changed the store, as the journal has it. The numbers are the store's own.
#[derive(Clone, Copy, Debug, PartialEq, Eq)]
pub enum Call<'a> {
    /// BEGIN.
    Begin {
        /// The update's pages.
        n: u64,
    },
    /// PUT.
    Put {
        /// The ticket.
        ticket: u64,
        /// Which page of the update.
        i: u64,
        /// The page's bytes.
        bytes: &'a [u8],
    },
    /// ASSIGN as a write.
    Write {
        /// The line.
        line: u64,
        /// The ticket.
        ticket: u64,
        /// The first page.
        first: u64,
    },
    /// ASSIGN as an append.
    Append {
        /// The line.
        line: u64,
        /// The ticket.
        ticket: u64,
    },
    /// So many WEAVEs in a row.
    Weave {
        /// The ticket.
        ticket: u64,
        /// How many.
        count: u64,
    },
    /// A PUBLISH that published: one that waits or is held changes nothing.
    Publish {
        /// The line.
        line: u64,
        /// The minute of the week.
        minute: u64,
    },
    /// SETWINDOWS.
    SetWindows {
        /// The list.
        text: &'a [u8],
    },
    /// BRANCH.
    Branch {
        /// The line that it begins from.
        line: u64,
        /// The version that it begins from.
        version: u64,
    },
}

/// Why a call that a store once accepted is not done again: it is another store, or another moment of it.
#[derive(Clone, Copy, Debug, PartialEq, Eq)]
#[non_exhaustive]
pub enum ReplayError {
    /// The store refuses it.
    Refused(Error),
    /// The store publishes nothing, or holds it.
    NotPublished(Published),
}

// The kinds of entries that are calls.
const BEGIN: u64 = 1;
const PUT: u64 = 2;
const WRITE: u64 = 3;
const APPEND: u64 = 4;
const WEAVE: u64 = 5;
const PUBLISH: u64 = 6;
const SET_WINDOWS: u64 = 7;
const BRANCH: u64 = 8;

impl<'a> Call<'a> {
    /// Its kind and its arguments, and its page or text, as an entry has them.
    #[rustfmt::skip]
    pub(super) fn parts(&self) -> (Numbers, &'a [u8]) {
        match *self {
            Call::Begin { n } => ([BEGIN, n, 0, 0, 0, 0], &[]),
            Call::Put { ticket, i, bytes } => ([PUT, ticket, i, 0, 0, 0], bytes),
            Call::Write { line, ticket, first } => ([WRITE, line, ticket, first, 0, 0], &[]),
            Call::Append { line, ticket } => ([APPEND, line, ticket, 0, 0, 0], &[]),
            Call::Weave { ticket, count } => ([WEAVE, ticket, count, 0, 0, 0], &[]),
            Call::Publish { line, minute } => ([PUBLISH, line, minute, 0, 0, 0], &[]),
            Call::SetWindows { text } => ([SET_WINDOWS, 0, 0, 0, 0, 0], text),
            Call::Branch { line, version } => ([BRANCH, line, version, 0, 0, 0], &[]),
        }
    }

    /// The call of such an entry. None where it is not known here.
    #[rustfmt::skip]
    pub(super) fn of(numbers: &Numbers, bytes: &'a [u8]) -> Option<Call<'a>> {
        Some(match *numbers {
            [BEGIN, n, .., 0, 0] => Call::Begin { n },
            [PUT, ticket, i, .., 0, 0] => Call::Put { ticket, i, bytes },
            [WRITE, line, ticket, first, 0, 0] => Call::Write { line, ticket, first },
            [APPEND, line, ticket, .., 0, 0] => Call::Append { line, ticket },
            [WEAVE, ticket, count, .., 0, 0] => Call::Weave { ticket, count },
            [PUBLISH, line, minute, .., 0, 0] => Call::Publish { line, minute },
            [SET_WINDOWS, .., 0, 0] => Call::SetWindows { text: bytes },
            [BRANCH, line, version, .., 0, 0] => Call::Branch { line, version },
            _ => return None,
        })
    }

    /// Whether a page or a text follows the arguments in an entry of this kind.
    pub(super) fn has_bytes(kind: u64) -> bool {
        matches!(kind, PUT | SET_WINDOWS)
    }

    /// Makes the call again, on the store as it was before it.
    pub fn apply<A: Storage>(&self, store: &mut Store<A>) -> Result<(), ReplayError> {
        let done = match *self {
            Call::Begin { n } => store.begin(n).map(drop),
            Call::Put { ticket, i, bytes } => store.put(Ticket(ticket), i, bytes),
            Call::Write {
                line,
                ticket,
                first,
            } => {
                let (line, ticket) = (Line(line), Ticket(ticket));
                store.write(line, ticket, PageIndex(first)).map(drop)
            }
            Call::Append { line, ticket } => store.append(Line(line), Ticket(ticket)).map(drop),
            // a store refuses it once no node is left, however high the count
            Call::Weave { ticket, count } => {
                (0..count).try_for_each(|_| store.weave(Ticket(ticket)).map(drop))
            }
            Call::Publish { line, minute } => return publish(store, Line(line), Minute(minute)),
            Call::SetWindows { text } => store.set_windows(text).map_err(Error::from),
            Call::Branch { line, version } => store.branch(Line(line), Version(version)).map(drop),
        };
        done.map_err(ReplayError::Refused)
    }

    /// Its name in the table of refusals.
    pub fn name(&self) -> &'static str {
        match self {
            Call::Begin { .. } => "BEGIN",
            Call::Put { .. } => "PUT",
            Call::Write { .. } | Call::Append { .. } => "ASSIGN",
            Call::Weave { .. } => "WEAVE",
            Call::Publish { .. } => "PUBLISH",
            Call::SetWindows { .. } => "SETWINDOWS",
            Call::Branch { .. } => "BRANCH",
        }
    }
}

fn publish<A: Storage>(
    store: &mut Store<A>,
    line: Line,
    minute: Minute,
) -> Result<(), ReplayError> {
    match store.publish(line, minute) {
        Ok(Published::Now(_)) => Ok(()),
        Ok(other) => Err(ReplayError::NotPublished(other)),
        Err(error) => Err(ReplayError::Refused(error)),
    }
}

impl fmt::Display for ReplayError {
    fn fmt(&self, f: &mut fmt::Formatter<'_>) -> fmt::Result {
        match self {
            ReplayError::Refused(error) => error.fmt(f),
            ReplayError::NotPublished(Published::Held) => {
                f.write_str("the minute is inside a window")
            }
            ReplayError::NotPublished(_) => f.write_str("no version is due on that line"),
        }
    }
}
