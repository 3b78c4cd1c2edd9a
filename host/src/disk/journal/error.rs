//! What can be wrong with a journal, and what was cut off its end.

use super::call::ReplayError;
use std::fmt;

/// What is wrong with a journal, and where. Nothing of it was used.
#[derive(Clone, Debug, PartialEq, Eq)]
#[non_exhaustive]
pub struct JournalError {
    /// The generation: the number in the file's name.
    pub generation: u64,
    /// The byte of the file at which it is wrong, from 0.
    pub offset: u64,
    /// The number of the entry that stands there or should; 0 where it is the header.
    pub entry: u64,
    /// What is wrong.
    pub kind: JournalErrorKind,
}

/// What is wrong with a journal.
#[derive(Clone, Debug, PartialEq, Eq)]
#[non_exhaustive]
pub enum JournalErrorKind {
    /// The header is damaged, or there is none.
    Header,
    /// The header is of a form that is not known here.
    Form(u64),
    /// The header is that of another generation's journal.
    Generation(u64),
    /// The journal goes on after another store, or another journal: it is of another folder, or of another time.
    OtherStore,
    /// An entry is damaged that was on the disk when something behind it was written.
    Damaged,
    /// The journal ends here, or is damaged from here on, and another goes on after it.
    Ended,
    /// The journal ends here, and went on when it was closed in order.
    ShorterThanClosed {
        /// The number of the last entry that it had then.
        last: u64,
    },
    /// The entry that stands there has another number.
    OutOfTurn(u64),
    /// The entry is of a kind that is not known here.
    EntryKind(u64),
    /// The store does not do the entry's call again.
    NotReplayed {
        /// The call's name.
        call: &'static str,
        /// Why not.
        why: ReplayError,
    },
}

impl JournalError {
    pub(crate) fn new(
        generation: u64,
        offset: u64,
        entry: u64,
        kind: JournalErrorKind,
    ) -> JournalError {
        JournalError {
            generation,
            offset,
            entry,
            kind,
        }
    }
}

impl fmt::Display for JournalError {
    fn fmt(&self, f: &mut fmt::Formatter<'_>) -> fmt::Result {
        let JournalError {
            generation, offset, ..
        } = self;
        write!(f, "journal-{generation} at byte {offset}")?;
        match self.entry {
            0 => write!(f, ": {}", self.kind),
            entry => write!(f, ", entry {entry}: {}", self.kind),
        }
    }
}

impl std::error::Error for JournalError {}

impl fmt::Display for JournalErrorKind {
    fn fmt(&self, f: &mut fmt::Formatter<'_>) -> fmt::Result {
        match self {
            JournalErrorKind::Header => f.write_str("the header is damaged or missing"),
            JournalErrorKind::Form(form) => write!(f, "the journal has form {form}; only form 1 is known"),
            JournalErrorKind::Generation(found) => write!(f, "the header is that of generation {found}"),
            JournalErrorKind::OtherStore => {
                f.write_str("the journal does not go on after the store or journal before it, but after another")
            }
            JournalErrorKind::Damaged => f.write_str(
                "the entry is damaged, and what was written after it says that it was on the disk",
            ),
            JournalErrorKind::Ended => f.write_str(
                "the journal is cut off or damaged here, and another one goes on after it",
            ),
            JournalErrorKind::ShorterThanClosed { last } => write!(
                f,
                "the journal ends before this entry, and had entries up to {last} when it was closed in order"
            ),
            JournalErrorKind::OutOfTurn(found) => write!(f, "the entry that stands there has number {found}"),
            JournalErrorKind::EntryKind(kind) => write!(f, "the entry is of kind {kind}, which is not known here"),
            JournalErrorKind::NotReplayed { call, why } => {
                write!(
                    f,
                    "its {call} does not fit the store as it is before it: {why}"
                )
            }
        }
    }
}

/// What was cut off the end of a journal when it was opened: what a process that died, or a power cut, left half written
/// there.
#[derive(Clone, Debug, PartialEq, Eq)]
#[non_exhaustive]
pub struct Cut {
    /// The generation: the number in the file's name.
    pub generation: u64,
    /// The number of the last entry that stays; 0 where none was ever written.
    pub after: u64,
    /// The byte of the file from which on it was cut off.
    pub offset: u64,
    /// How many bytes were cut off.
    pub bytes: u64,
    /// Whether the file ends in the middle of the first entry that was cut off; else that entry is damaged.
    pub torn: bool,
    /// How many whole entries were cut off with it, since one before them is damaged. None of them is known to have been on
    /// the disk: a power cut leaves what was not yet synced in any order.
    pub whole: u64,
    /// The name of the file in the folder that what was cut off is kept in: where whole entries are in it, and the folder was opened.
    pub kept: Option<String>,
}

impl fmt::Display for Cut {
    fn fmt(&self, f: &mut fmt::Formatter<'_>) -> fmt::Result {
        let Cut {
            generation,
            after,
            offset,
            bytes,
            ..
        } = self;
        let how = if self.torn { "torn" } else { "damaged" };
        write!(
            f,
            "{bytes} bytes were cut off journal-{generation} from byte {offset} on: the entry after entry {after} is {how}"
        )?;
        if self.whole > 0 {
            let whole = self.whole;
            write!(
                f,
                ", and {whole} whole ones behind it were never known to be on the disk"
            )?;
        }
        match &self.kept {
            None => Ok(()),
            Some(name) => write!(f, "; what was cut off is kept in {name}"),
        }
    }
}
