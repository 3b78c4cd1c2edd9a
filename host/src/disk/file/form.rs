//! The form of a store's file: the header, and the areas as bytes. [`Store::save`](crate::Store::save) shows it.

use super::derived::height_of;
use super::summed::Summed;
use super::taken::{pages_agree, Taken};
use super::FileError;
use super::{derived, old};
use crate::calls::areas::{Areas, Limits, Storage, MOST_PAGES};
use crate::calls::counters::Line;
use crate::calls::ffi::{root_span, Entries, LineState, Record, State, Window, Windows, LINES};
use std::io::{Read, Write};

/// The first eight bytes of every file.
const MAGIC: [u8; 8] = *b"PITSTORE";
/// How many numbers of 64 bits a state, the windows and a record have, in the files that are written here. Two windows are
/// one such number.
const STATE: usize = 10 + LINES;
const WINDOWS: usize = 32 / 2;
const RECORD: usize = 18;
/// The header's numbers up to the checksum, which is the last: the magic and the form, the state, the windows and four
/// lengths.
const BEFORE_CHECKSUM: usize = 2 + STATE + WINDOWS + 4;
/// Where the checksum stands. It covers all bytes but its own.
pub const CHECKSUM_AT: usize = 8 * BEFORE_CHECKSUM;
const HEADER: usize = CHECKSUM_AT + 8;
/// A node's length in bytes.
const NODE: u64 = 8;
/// The last part has at most so many bytes. Every area has fewer.
const MOST_LAST: u64 = 1 << 28;
/// How many numbers of the node area are turned into bytes at a time.
const NUMBERS_AT_A_TIME: usize = 2_048;

/// The forms of file that are read.
#[derive(Clone, Copy)]
enum Form {
    /// Of a store from before there were lines.
    OneLine = 1,
    /// With lines' numbers one by one, and records without what follows from the rest.
    Lines = 2,
    /// With lines packed, and no windows.
    Packed = 3,
    /// With windows, and the areas whole.
    Windows = 4,
    /// As files are written here, with what is taken of the areas.
    Taken = 5,
}

impl Form {
    fn of(number: u64) -> Option<Form> {
        use Form::*;
        let forms = [OneLine, Lines, Packed, Windows, Taken];
        forms.into_iter().find(|form| *form as u64 == number)
    }

    /// The header's length in bytes. Before form 5 there were three lengths and the checksum in it.
    fn header(self) -> usize {
        match self {
            Form::OneLine => 8 * (2 + old::STATE_1 + 4),
            Form::Lines => 8 * (2 + old::STATE_2 + 4),
            Form::Packed => 8 * (2 + STATE + 4),
            Form::Windows => 8 * (2 + STATE + WINDOWS + 4),
            Form::Taken => HEADER,
        }
    }

    /// A record's length in bytes.
    fn record(self) -> u64 {
        match self {
            Form::OneLine => 8 * old::RECORD_1 as u64,
            Form::Lines => 8 * old::RECORD_2 as u64,
            Form::Packed | Form::Windows | Form::Taken => 8 * RECORD as u64,
        }
    }
}

/// What stands before the areas.
pub struct Header {
    form: Form,
    pub state: State,
    /// The state's lines as the file has them: a file of an earlier form may have numbers that cannot be packed.
    lines: [LineState; LINES],
    pub windows: Windows,
    /// In bytes: what is there of the page area, the node area and the register, and the last part.
    lengths: [u64; 4],
    checksum: u64,
}

impl Header {
    /// The header of what is saved, with no checksum yet.
    pub fn of(taken: &Taken<'_>) -> Header {
        let state = taken.state;
        let lengths = [
            // any numbers may stand in a state: those that have no product are refused before it counts
            state.size.wrapping_mul(state.taken),
            4 * taken.nodes.len() as u64,
            (8 * RECORD * taken.register.len()) as u64,
            taken.last_part.len() as u64,
        ];
        Header {
            form: Form::Taken,
            state,
            lines: lines_of(&state),
            windows: taken.windows,
            lengths,
            checksum: 0,
        }
    }

    /// The header at the front of a file of `found` bytes.
    pub fn read(file: &mut Summed<'_, impl Read>, found: u64) -> Result<Header, FileError> {
        let mut bytes = Vec::with_capacity(HEADER);
        file.read_beside(16, &mut bytes)?;
        let magic = bytes.len().min(MAGIC.len());
        if bytes[..magic] != MAGIC[..magic] {
            return Err(FileError::Foreign);
        }
        let form = match numbers_of(&bytes).nth(1) {
            Some(number) => Form::of(number).ok_or(FileError::Form(number))?,
            None => Form::Taken, // cut off before it
        };
        file.read_beside(form.header() - bytes.len(), &mut bytes)?;
        if bytes.len() < form.header() {
            let expected = form.header() as u64;
            return Err(FileError::Truncated { expected, found });
        }
        file.sum.add(&bytes[..form.header() - 8]);
        Ok(Header::from_bytes(form, &bytes))
    }

    fn from_bytes(form: Form, bytes: &[u8]) -> Header {
        let mut numbers = numbers_of(&bytes[16..]);
        let (mut state, lines) = match form {
            Form::OneLine => old::state_of_1(next(&mut numbers)),
            Form::Lines => old::state_of_2(next(&mut numbers)),
            Form::Packed | Form::Windows | Form::Taken => {
                let state = state_of(next(&mut numbers));
                (state, lines_of(&state))
            }
        };
        for (at, line) in (0..).zip(lines) {
            state.set_line(Line(at), line);
        }
        let windows = match form {
            Form::Windows | Form::Taken => windows_of(next(&mut numbers)),
            _ => Windows::default(),
        };
        let [pages, nodes, register] = next(&mut numbers);
        let [last] = match form {
            Form::Taken => next(&mut numbers),
            _ => [0],
        };
        let [checksum] = next(&mut numbers);
        Header {
            form,
            state,
            lines,
            windows,
            lengths: [pages, nodes, register, last],
            checksum,
        }
    }

    /// As it is written, up to the checksum.
    pub fn to_bytes(&self) -> [u8; CHECKSUM_AT] {
        let front = [u64::from_le_bytes(MAGIC), Form::Taken as u64];
        let numbers = front.into_iter().chain(numbers_of_state(&self.state));
        let numbers = numbers.chain(numbers_of_windows(&self.windows));
        let mut numbers = numbers.chain(self.lengths);
        to_bytes(&next::<BEFORE_CHECKSUM>(&mut numbers))
    }

    pub fn limits(&self) -> Limits {
        self.state.limits()
    }

    /// How many pages, node places and records are there: what is taken, and in an earlier form all that there is room for.
    fn held(&self) -> [u64; 3] {
        let s = &self.state;
        match self.form {
            Form::Taken => [s.taken, s.places, s.tickets],
            _ => [s.pages, s.nodes, s.updates],
        }
    }

    /// FORMAT accepts the limits, no more is there than they have room for, and that has its lengths.
    pub fn check_lengths(&self) -> Result<(), FileError> {
        self.limits().check().map_err(FileError::Limits)?;
        let (s, held) = (&self.state, self.held());
        if !has_room(s, held) {
            return Err(FileError::Counters);
        }
        let [pages, nodes, records] = held;
        // of limits that FORMAT accepts, no product is above 2^28
        let areas = [s.size * pages, NODE * nodes, self.form.record() * records];
        let [lengths @ .., last] = self.lengths;
        if lengths != areas || last > MOST_LAST {
            return Err(FileError::AreaLengths);
        }
        Ok(())
    }

    /// The file is as long as header and lengths. After `check_lengths`, so that these have a sum.
    pub fn check_length(&self, found: u64) -> Result<(), FileError> {
        let expected = self.form.header() as u64 + self.lengths.iter().sum::<u64>();
        match found {
            _ if found < expected => Err(FileError::Truncated { expected, found }),
            _ if found > expected => Err(FileError::TooLong { expected, found }),
            _ => Ok(()),
        }
    }

    /// The checksum is that of the file.
    pub fn check_checksum(&self, sum: u64) -> Result<(), FileError> {
        if self.checksum != sum {
            return Err(FileError::Checksum);
        }
        Ok(())
    }

    /// No counter has passed what it counts.
    pub fn check_counters(&self) -> Result<(), FileError> {
        let s = &self.state;
        let given = has_room(s, [s.taken, s.places, s.tickets]);
        if given && s.assigned <= s.tickets && lines_agree(s, &self.lines) {
            Ok(())
        } else {
            Err(FileError::Counters)
        }
    }

    /// The windows are such as SETWINDOWS leaves.
    pub fn check_windows(&self) -> Result<(), FileError> {
        if self.windows.are_set() {
            Ok(())
        } else {
            Err(FileError::Windows)
        }
    }

    /// The register's records have what follows from the rest of it; and where pages that are not put are left out, no version
    /// has one. After `check_counters`.
    pub fn check_records(&self, register: &[Record]) -> Result<(), FileError> {
        let whole = !matches!(self.form, Form::Taken) || pages_agree(register, &self.state);
        if whole && derived::agrees(register, &self.state) {
            Ok(())
        } else {
            Err(FileError::Counters)
        }
    }

    /// Areas of these limits, filled from a file that stands where they begin. What it has nothing of is as FORMAT leaves it.
    pub fn read_areas(&self, file: &mut Summed<'_, impl Read>) -> Result<Areas, FileError> {
        let mut areas = Areas::new(&self.limits()).map_err(FileError::Limits)?;
        let lent = areas.parts_mut();
        // each within its area, by `check_lengths`
        let [pages, nodes, records] = self.held().map(|held| held as usize);
        file.read(&mut lent.pages[..pages * self.state.size as usize])?;
        let (taken, rest) = lent.nodes.split_at_mut(2 * nodes);
        read_nodes(taken, file)?;
        rest.fill(u32::MAX);
        self.read_register(&mut lent.register[..records], file)?;
        Ok(areas)
    }

    fn read_register(
        &self,
        register: &mut [Record],
        file: &mut Summed<'_, impl Read>,
    ) -> Result<(), FileError> {
        let mut bytes = vec![0; self.form.record() as usize];
        for (number, record) in (1..).zip(register) {
            file.read(&mut bytes)?;
            let numbers = &mut numbers_of(&bytes);
            *record = match self.form {
                Form::OneLine => old::record_of_1(next(numbers), number, self.state.assigned),
                Form::Lines => old::record_of_2(next(numbers)),
                Form::Packed | Form::Windows | Form::Taken => record_of(next(numbers)),
            };
        }
        Ok(())
    }

    /// The last part, from a file that stands where it begins.
    pub fn read_last_part(&self, file: &mut Summed<'_, impl Read>) -> Result<Vec<u8>, FileError> {
        let [.., length] = self.lengths;
        let mut last_part = vec![0; length as usize];
        file.read(&mut last_part)?;
        Ok(last_part)
    }
}

/// Whether so many pages, nodes and updates are within the capacities.
fn has_room(s: &State, [pages, nodes, updates]: [u64; 3]) -> bool {
    pages <= s.pages && nodes <= s.nodes && updates <= s.updates
}

/// The lines are such as calls leave: each begins from a version that an earlier one has published, and their own versions
/// together are the updates that have a version. Those that have not begun are zeros. All of these numbers can be packed.
fn lines_agree(s: &State, lines: &[LineState; LINES]) -> bool {
    if s.begun == 0 || s.begun > LINES as u64 {
        return false;
    }
    let (begun, unbegun) = lines.split_at(s.begun as usize);
    let mut own = 0;
    for (at, line) in begun.iter().enumerate() {
        let source = begun[..at].get(line.source as usize);
        let starts = match source {
            Some(source) => line.start <= source.published,
            None => at == 0 && (line.source, line.start) == (0, 0),
        };
        let counts = line.start <= line.published && line.published <= line.assigned;
        if !(starts && counts && line.assigned <= s.assigned && line.blob <= MOST_PAGES) {
            return false;
        }
        own += line.assigned - line.start;
    }
    own == s.assigned && unbegun.iter().all(|line| *line == LineState::default())
}

/// Writes nodes' numbers, some at a time.
pub fn write_nodes(nodes: &[u32], out: &mut Summed<'_, impl Write>) -> Result<(), FileError> {
    let mut piece = Vec::with_capacity(4 * NUMBERS_AT_A_TIME);
    for numbers in nodes.chunks(NUMBERS_AT_A_TIME) {
        piece.clear();
        piece.extend(numbers.iter().flat_map(|number| number.to_le_bytes()));
        out.write(&piece)?;
    }
    Ok(())
}

/// Reads nodes' numbers, as many as there are places for.
fn read_nodes(nodes: &mut [u32], file: &mut Summed<'_, impl Read>) -> Result<(), FileError> {
    let mut piece = [0; 4 * NUMBERS_AT_A_TIME];
    for numbers in nodes.chunks_mut(NUMBERS_AT_A_TIME) {
        let piece = &mut piece[..4 * numbers.len()];
        file.read(piece)?;
        let fours = piece.chunks_exact(4);
        let read = fours.map(|b| u32::from_le_bytes([b[0], b[1], b[2], b[3]]));
        numbers
            .iter_mut()
            .zip(read)
            .for_each(|(number, read)| *number = read);
    }
    Ok(())
}

/// Writes records.
pub fn write_register(
    register: &[Record],
    out: &mut Summed<'_, impl Write>,
) -> Result<(), FileError> {
    for record in register {
        let bytes: [u8; 8 * RECORD] = to_bytes(&numbers_of_record(record));
        out.write(&bytes)?;
    }
    Ok(())
}

/// Numbers as bytes, lowest first: eight bytes a number.
fn to_bytes<const NUMBERS: usize, const BYTES: usize>(numbers: &[u64; NUMBERS]) -> [u8; BYTES] {
    let mut bytes = [0; BYTES];
    for (eight, number) in bytes.chunks_exact_mut(8).zip(numbers) {
        eight.copy_from_slice(&number.to_le_bytes());
    }
    bytes
}

/// The numbers that bytes are, lowest byte first.
fn numbers_of(bytes: &[u8]) -> impl Iterator<Item = u64> + '_ {
    bytes.chunks_exact(8).map(|eight| {
        let mut bytes = [0; 8];
        bytes.copy_from_slice(eight);
        u64::from_le_bytes(bytes)
    })
}

/// The next of the numbers; zeros where there are too few, which the lengths rule out.
fn next<const NUMBERS: usize>(numbers: &mut impl Iterator<Item = u64>) -> [u64; NUMBERS] {
    [(); NUMBERS].map(|()| numbers.next().unwrap_or_default())
}

fn lines_of(s: &State) -> [LineState; LINES] {
    let mut lines = [LineState::default(); LINES];
    for (at, line) in (0..).zip(&mut lines) {
        *line = s.line(Line(at));
    }
    lines
}

#[rustfmt::skip]
fn numbers_of_state(s: &State) -> [u64; STATE] {
    let counters = [s.size, s.pages, s.nodes, s.updates, s.tickets, s.taken, s.assigned, s.places, s.begun, s.sources];
    next(&mut counters.into_iter().chain(s.lines))
}

#[rustfmt::skip]
fn state_of(numbers: [u64; STATE]) -> State {
    let [size, pages, nodes, updates, tickets, taken, assigned, places, begun, sources, lines @ ..] = numbers;
    State { size, pages, nodes, updates, tickets, taken, assigned, places, begun, sources, lines }
}

/// Two windows a number, the first one lowest, and in each `from`.
fn numbers_of_windows(windows: &Windows) -> [u64; WINDOWS] {
    let word = |w: &Window| u64::from(w.from) | (u64::from(w.to) << 16);
    let pair = |pair: &[Window]| (word(&pair[1]) << 32) | word(&pair[0]);
    next(&mut windows.places.chunks_exact(2).map(pair))
}

fn windows_of(numbers: [u64; WINDOWS]) -> Windows {
    let window = |word: u64| Window {
        from: word as u16,
        to: (word >> 16) as u16,
    };
    let words = numbers.into_iter().flat_map(|pair| [pair, pair >> 32]);
    let mut windows = Windows::default();
    for (place, word) in windows.places.iter_mut().zip(words) {
        *place = window(word);
    }
    windows
}

/// The root's span of a record in a file: that of its size, by the table, or none without an update. Any number may stand
/// where the height does: where it is not that span's, the record gets a span that none has.
fn span_of(name: u64, size: u64, height: u64) -> u64 {
    let span = if name == 0 { 0 } else { root_span(size) };
    if height == height_of(span) {
        span
    } else {
        u64::MAX
    }
}

/// A file has the root's height where a record has its span, as records had it when form 3 came. So files from before there were
/// spans load, and files written here load there. Without an update both are 0. Only records that have what follows from the rest
/// of them are written.
#[rustfmt::skip]
fn numbers_of_record(r: &Record) -> [u64; RECORD] {
    let e = &r.entries;
    [
        r.n, r.number, r.put, r.update, r.ticket, r.name, r.f, r.last, r.top, r.past, height_of(r.span), r.size, r.count, r.woven,
        e.from0, e.from4, e.from8, e.from12,
    ]
}

#[rustfmt::skip]
fn record_of(numbers: [u64; RECORD]) -> Record {
    let [
        n, number, put, update, ticket, name, f, last, top, past, height, size, count, woven,
        from0, from4, from8, from12,
    ] = numbers;
    let (span, entries) = (span_of(name, size, height), Entries { from0, from4, from8, from12 });
    Record { n, number, put, update, ticket, name, f, last, top, past, span, size, count, woven, entries }
}
