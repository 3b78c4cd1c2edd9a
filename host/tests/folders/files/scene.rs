//! What the tests share: a store in work, and the file's numbers and checksum as documented.

pub use crate::folder::Folder;
use crate::support::call::Begin;
use crate::updates::{assign, limits, update, LIVE};
use pit_host::{FileError, Limits, Line, Record, Store, Version, Window, Windows};
use std::fs;
use std::ops::Range;

/// CRC-64/XZ a bit at a time, as its definition has it.
pub fn checksum(bytes: impl Iterator<Item = u8>) -> u64 {
    let after_a_bit = |rest: u64| (rest >> 1) ^ (0xc96c_5795_d787_0f42 * (rest & 1));
    !bytes.fold(!0, |rest, byte| {
        (0..8).fold(rest ^ u64::from(byte), |rest, _| after_a_bit(rest))
    })
}

/// A file's header in bytes; its last number is the checksum, and there are four lengths before that.
pub const HEADER: usize = 392;
/// The same of files of forms 1 to 4, which have three lengths.
pub const HEADER_1: usize = 128;
pub const HEADER_2: usize = 760;
pub const HEADER_3: usize = 256;
pub const HEADER_4: usize = 384;

/// Where the windows stand in the header, in bytes.
pub const WINDOWS: Range<usize> = 224..352;

/// A record in bytes.
pub const RECORD: usize = 144;

/// A number of the header, which has 49, or of what follows.
pub fn number(bytes: &[u8], index: usize) -> u64 {
    u64::from_le_bytes(bytes[8 * index..8 * index + 8].try_into().unwrap())
}

pub fn set_number(bytes: &mut [u8], index: usize, number: u64) {
    bytes[8 * index..8 * index + 8].copy_from_slice(&number.to_le_bytes());
}

/// The file with its checksum made right for what it holds.
pub fn sealed(bytes: Vec<u8>) -> Vec<u8> {
    sealed_after(HEADER, bytes)
}

/// The same where the header has so many bytes.
pub fn sealed_after(header: usize, mut bytes: Vec<u8>) -> Vec<u8> {
    let covered = bytes[..header - 8].iter().chain(&bytes[header..]);
    let sum = checksum(covered.copied());
    set_number(&mut bytes, header / 8 - 1, sum);
    bytes
}

/// A file of this form: a header of such a state, with the lengths of the parts and a checksum made right, and the parts.
fn file_of(form: u64, state: &[u64], parts: &[Vec<u8>]) -> Vec<u8> {
    let front = [u64::from_le_bytes(*b"PITSTORE"), form];
    let lengths: Vec<u64> = parts.iter().map(|part| part.len() as u64).collect();
    let header = to_bytes([&front[..], state, &lengths, &[0]].concat());
    let length = header.len();
    sealed_after(length, [header, parts.concat()].concat())
}

fn to_bytes(numbers: impl IntoIterator<Item = u64>) -> Vec<u8> {
    numbers.into_iter().flat_map(u64::to_le_bytes).collect()
}

/// The limits and the four counters that every form begins with.
fn counters(store: &Store) -> Vec<u64> {
    let s = store.state();
    let limits = [s.size, s.pages, s.nodes, s.updates];
    [limits, [s.tickets, s.taken, s.assigned, s.places]].concat()
}

/// The areas whole, with a register of such records.
fn areas(store: &Store, of_record: impl Fn(&Record) -> Vec<u64>) -> Vec<Vec<u8>> {
    let areas = store.areas();
    let nodes = areas.nodes().iter().flat_map(|n| n.to_le_bytes()).collect();
    let register = to_bytes(areas.register().iter().flat_map(of_record));
    vec![areas.pages().to_vec(), nodes, register]
}

/// The height of an update's root, which records from form 3 on have; 0 without an update.
fn height(r: &Record) -> u64 {
    (0..).find(|height| r.span <= 1 << height).expect("a span")
}

/// An update's first node place, which records of forms 1 and 2 have.
fn place(r: &Record) -> u64 {
    r.top - height(r)
}

/// A store with line 0 alone as a file of form 1 has it: written from that form's description, in which a ticket has its
/// version, and the k-th version's part stands in record k.
pub fn in_form_1(store: &Store) -> Vec<u8> {
    let s = store.state();
    assert_eq!(s.begun, 1, "form 1 has one line");
    let live = s.line(LIVE);
    let state = [counters(store), vec![live.published, live.blob]].concat();
    let areas = areas(store, |r| {
        let ticket = [r.n, r.number, r.put, r.update, r.ticket];
        [&ticket[..], &[r.f, r.last, r.size, place(r), r.woven]].concat()
    });
    file_of(1, &state, &areas)
}

/// A store as a file of form 2 has it: written from that form's description, five numbers a line.
pub fn in_form_2(store: &Store) -> Vec<u8> {
    let s = store.state();
    let lines = (0..16).map(|line| s.line(Line(line)));
    let lines = lines.flat_map(|l| [l.source, l.start, l.assigned, l.published, l.blob]);
    let state = [counters(store), vec![s.begun], lines.collect()].concat();
    let areas = areas(store, |r| {
        let (ticket, e) = ([r.n, r.number, r.put, r.update, r.ticket], r.entries);
        let update = [r.name, r.f, r.last, r.size, place(r), r.woven];
        [&ticket[..], &update, &[e.from0, e.from4, e.from8, e.from12]].concat()
    });
    file_of(2, &state, &areas)
}

/// A record from form 3 on.
#[rustfmt::skip]
fn record(r: &Record) -> Vec<u64> {
    let e = r.entries;
    vec![
        r.n, r.number, r.put, r.update, r.ticket, r.name, r.f, r.last, r.top, r.past, height(r), r.size, r.count,
        r.woven, e.from0, e.from4, e.from8, e.from12,
    ]
}

/// A state from form 3 on, with packed lines.
fn state_3(store: &Store) -> Vec<u64> {
    let s = store.state();
    [&counters(store)[..], &[s.begun, s.sources], &s.lines].concat()
}

/// The same with the windows, from form 4 on.
fn state_4(store: &Store) -> Vec<u64> {
    let word = |w: &Window| u64::from(w.from) | u64::from(w.to) << 16;
    let places = store.windows().places;
    let pairs = places.chunks(2);
    let windows = pairs.map(|pair| word(&pair[0]) | word(&pair[1]) << 32);
    [state_3(store), windows.collect()].concat()
}

/// A store without windows as a file of form 3 has it, with the areas whole.
pub fn in_form_3(store: &Store) -> Vec<u8> {
    assert_eq!(store.windows(), Windows::default(), "form 3 has none");
    file_of(3, &state_3(store), &areas(store, record))
}

/// A store as a file of form 4 has it, with the areas whole.
pub fn in_form_4(store: &Store) -> Vec<u8> {
    file_of(4, &state_4(store), &areas(store, record))
}

/// A store as a file of form 5 has it, with what its counters say of the areas, and this numbering.
pub fn in_form_5(store: &Store, numbering: &[u8]) -> Vec<u8> {
    let (s, mut parts) = (store.state(), areas(store, record));
    let taken = [s.size * s.taken, 8 * s.places, RECORD as u64 * s.tickets];
    for (part, length) in parts.iter_mut().zip(taken) {
        part.truncate(length as usize);
    }
    parts.push(numbering.to_vec());
    file_of(5, &state_4(store), &parts)
}

/// The bytes of a saved store.
pub fn saved(folder: &Folder, store: &Store) -> Vec<u8> {
    store.save(folder.file()).unwrap();
    fs::read(folder.file()).unwrap()
}

/// Why a file with these bytes is not loaded.
pub fn refused(folder: &Folder, bytes: &[u8]) -> FileError {
    fs::write(folder.file(), bytes).unwrap();
    Store::load(folder.file()).expect_err("a file that is not loaded")
}

/// A small store in work: one version published, one half woven, one ticket open.
pub fn in_work() -> Store {
    in_work_of(limits(6, 16, 4))
}

/// The same with other room.
pub fn in_work_of(limits: Limits) -> Store {
    let mut store = Store::format(limits).unwrap();
    update(&mut store, LIVE, None, &[1, 2]).unwrap();
    let (ticket, _) = assign(&mut store, LIVE, Some(1), &[3, 4]).unwrap();
    store.weave(ticket).unwrap();
    let open = store.begin(2).unwrap();
    store.put(open, 1, &[5; 16]).unwrap();
    store
}

/// A small store in work on three lines: line 1 from version 1 of line 0, line 2 empty. Each has a version of its own, line
/// 1's published.
pub fn in_work_on_lines() -> Store {
    let mut store = Store::format(limits(12, 32, 6)).unwrap();
    update(&mut store, LIVE, None, &[1, 2]).unwrap();
    let plan = store.line_from(LIVE, Version(1));
    let other = store.line_from(plan, Version(0));
    assert_eq!((plan, other), (Line(1), Line(2)));
    assign(&mut store, LIVE, Some(1), &[3, 4]).unwrap();
    update(&mut store, plan, None, &[5]).unwrap();
    let (ticket, _) = assign(&mut store, other, None, &[6, 7]).unwrap();
    store.weave(ticket).unwrap();
    store.begin(2).unwrap();
    store
}
