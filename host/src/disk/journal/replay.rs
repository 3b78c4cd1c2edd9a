//! Reading a journal: its calls are made again.

use super::ahead::used;
use super::call::Call;
use super::entry::{is_cut_off, said_at_front, Content, Entry, MAGIC, MOST_ENTRY, NOTE};
use super::error::{Cut, JournalError, JournalErrorKind};
use super::header::Header;
use super::input::{Input, Reader};
use crate::calls::areas::Storage;
use crate::calls::store::Store;
use crate::disk::file::FileError;
use std::io;

/// What a journal was found to hold.
#[derive(Clone, Debug, PartialEq, Eq)]
pub struct Replayed {
    pub header: Header,
    /// The number of its last entry; of the one before its first, where it has none.
    pub last: u64,
    /// The number up to which it notes that all was synced; 0 where it has no such note.
    pub noted: u64,
    /// A call up to which all are noted so, and where it ends; the header's end, where none is known.
    pub noted_end: (u64, u64),
    /// Where the last call ends.
    pub call_end: u64,
    /// Whether it says that it has ended, and another goes on after it.
    pub ended: bool,
    /// The bytes up to the end of what is whole.
    pub length: u64,
    /// What stands after that.
    pub cut: Option<Cut>,
}

impl Replayed {
    /// How many calls were made again.
    pub fn entries(&self) -> u64 {
        self.last + 1 - self.header.first
    }

    /// How many of the journal's bytes it notes to have been synced: up to the end of the last call that is. Not even its header,
    /// where it has no note. A note itself was written after the sync.
    pub fn noted_bytes(&self, input: &Input) -> io::Result<u64> {
        if self.noted == 0 {
            return Ok(0);
        }
        let (mut number, mut length) = self.noted_end;
        let mut reader = input.from(length);
        while number < self.noted {
            let (next, of_entry) = match said_at_front(reader.rest()?) {
                Some(said) => said,
                None => break,
            };
            reader.advance(of_entry);
            (number, length) = (next, length + of_entry as u64);
        }
        Ok(length.min(self.length))
    }

    /// Checks that the journal with this header goes on where this one ends: it was begun when all of this one was synced.
    pub fn goes_on_in(&self, next: &Header) -> Result<(), JournalError> {
        if next.before != self.header.salt {
            return Err(next.error(JournalErrorKind::OtherStore));
        }
        // a power cut may take the note that this one has ended, or leave a part of that
        let is_more = |cut: &Cut| self.ended || cut.whole > 0 || cut.bytes > NOTE as u64;
        if self.cut.as_ref().map_or(false, is_more) || self.last + 1 < next.first {
            return Err(self.error(JournalErrorKind::Ended));
        }
        if self.last + 1 > next.first {
            let kind = JournalErrorKind::OutOfTurn(next.first);
            return Err(JournalError::new(
                next.generation,
                Header::LENGTH,
                self.last + 1,
                kind,
            ));
        }
        Ok(())
    }
}

/// Makes the calls of a journal again, in order, up to its end or to the first entry that is not whole. It is read a part at a time,
/// however long it is.
///
/// What stands after that is not used. A process that dies leaves an entry half written, and a power cut any part of what
/// was not yet synced. So the journal is cut there, unless something behind it says that the entry was synced: then the
/// journal is damaged, and that is an error, as is a whole entry that is out of turn or that the store refuses.
pub fn replay<A: Storage>(
    input: &Input,
    header: &Header,
    store: &mut Store<A>,
) -> Result<Replayed, FileError> {
    let mut found = Replayed {
        header: *header,
        last: header.first - 1,
        noted: 0,
        noted_end: (header.first - 1, Header::LENGTH),
        call_end: Header::LENGTH,
        ended: false,
        length: Header::LENGTH,
        cut: None,
    };
    loop {
        found.take_whole(input, store)?;
        let cut = found.cut_off(input);
        // where another process writes, what was read later may be newer than what was read before: the entry is looked at once more
        if matches!(cut, Ok(None)) || !found.is_whole_now(input)? {
            found.cut = cut?;
            return Ok(found);
        }
    }
}

impl Replayed {
    /// An error at the end of what was found.
    fn error(&self, kind: JournalErrorKind) -> JournalError {
        let generation = self.header.generation;
        JournalError::new(generation, self.length, self.last + 1, kind)
    }

    /// Takes the next entries, up to the first that is not whole.
    fn take_whole<A: Storage>(
        &mut self,
        input: &Input,
        store: &mut Store<A>,
    ) -> Result<(), FileError> {
        let mut reader = input.from(self.length);
        loop {
            let rest = reader.rest().map_err(|e| input.error(e))?;
            let entry = match Entry::at_front(rest, self.header.salt) {
                Some(entry) => entry,
                None => return Ok(()),
            };
            let taken = self.take(&entry, store);
            taken.map_err(|kind| self.error(kind))?;
            let length = entry.length();
            reader.advance(length);
        }
    }

    /// Takes the next entry.
    fn take<A: Storage>(
        &mut self,
        entry: &Entry<'_>,
        store: &mut Store<A>,
    ) -> Result<(), JournalErrorKind> {
        let length = entry.length() as u64;
        match entry.content().map_err(JournalErrorKind::EntryKind)? {
            _ if self.ended => return Err(JournalErrorKind::OutOfTurn(entry.number)),
            Content::Synced if entry.number <= self.last => self.note(entry.number),
            Content::Ended if entry.number == self.last => {
                self.note(entry.number);
                self.ended = true;
            }
            Content::Call(call) if entry.number == self.last + 1 => {
                apply(&call, store)?;
                self.last = entry.number;
                self.call_end = self.length + length;
            }
            _ => return Err(JournalErrorKind::OutOfTurn(entry.number)),
        }
        self.length += length;
        Ok(())
    }

    /// All calls up to this number were synced. Of two that synced at once, the one that came further may have noted it first.
    fn note(&mut self, number: u64) {
        self.noted = self.noted.max(number);
        if self.noted == self.last {
            self.noted_end = (self.last, self.call_end);
        }
    }

    /// Whether the first entry that was not whole is so now.
    fn is_whole_now(&self, input: &Input) -> Result<bool, FileError> {
        let mut bytes = vec![0; MOST_ENTRY];
        let filled = input.fill(&mut bytes, self.length);
        let count = filled.map_err(|e| input.error(e))?;
        Ok(Entry::at_front(&bytes[..count], self.header.salt).is_some())
    }

    /// What is cut off where the rest of the journal, but for what was written ahead, begins with no whole entry; an error where more was
    /// synced.
    fn cut_off(&self, input: &Input) -> Result<Option<Cut>, FileError> {
        let of_io = |e| input.error(e);
        let used = used(input, self.length, self.header.salt).map_err(of_io)?;
        if used == 0 {
            return Ok(None);
        }
        let (mut whole, mut reader) = (0, input.from(self.length));
        while let Some(is_call) = self.next_whole(&mut reader).map_err(of_io)? {
            if !is_call {
                return Err(self.error(JournalErrorKind::Damaged).into());
            }
            whole += 1;
        }
        let mut front = vec![0; (MOST_ENTRY as u64).min(used) as usize];
        let count = input.fill(&mut front, self.length).map_err(of_io)?;
        Ok(Some(Cut {
            generation: self.header.generation,
            after: self.last,
            offset: self.length,
            bytes: used,
            torn: whole == 0 && is_cut_off(&front[..count]),
            whole,
            kept: None,
        }))
    }

    /// The next whole entry that says something of what comes after the last one taken, wherever it begins: whether it is a call. It
    /// is then read. A copy of this journal that was put as a page holds only lower numbers, and not its end.
    fn next_whole(&self, reader: &mut Reader<'_>) -> io::Result<Option<bool>> {
        loop {
            let rest = reader.rest()?;
            if rest.is_empty() {
                return Ok(None);
            }
            // the search for any is much faster than that for the first
            let begin = match rest.contains(&MAGIC[0]) {
                true => rest.iter().position(|byte| *byte == MAGIC[0]),
                false => None,
            };
            let begin = match begin {
                Some(begin) => begin,
                None => {
                    let all = rest.len();
                    reader.advance(all);
                    continue;
                }
            };
            reader.advance(begin);
            let entry = Entry::at_front(reader.rest()?, self.header.salt);
            let (length, said) = entry.map_or((1, None), |e| (e.length(), self.said_by(&e)));
            reader.advance(length);
            if said.is_some() {
                return Ok(said);
            }
        }
    }

    /// Whether a whole entry is a call after the last one taken, or a note that there was one or that the journal has ended; none where
    /// it is neither.
    fn said_by(&self, entry: &Entry<'_>) -> Option<bool> {
        match entry.content() {
            Ok(Content::Ended) => (entry.number >= self.last).then_some(false),
            Ok(Content::Synced) => (entry.number > self.last).then_some(false),
            _ => (entry.number > self.last).then_some(true),
        }
    }
}

fn apply<A: Storage>(call: &Call<'_>, store: &mut Store<A>) -> Result<(), JournalErrorKind> {
    let call_name = call.name();
    call.apply(store)
        .map_err(|why| JournalErrorKind::NotReplayed {
            call: call_name,
            why,
        })
}
