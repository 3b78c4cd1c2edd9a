//! Damaged, cut off, contradictory and foreign files are refused, each with its reason.

use super::scene::{
    in_form_1, in_form_2, in_form_3, in_form_4, in_form_5, in_work, in_work_of, in_work_on_lines,
    number, refused, saved, sealed, sealed_after, set_number, Folder, HEADER, HEADER_1, HEADER_2,
    HEADER_3, HEADER_4, RECORD, WINDOWS,
};
use crate::support::call::Begin;
use crate::updates::{limits, update, LIVE};
use pit_host::{Areas, Error, FileError, Limits, Record, State, Storage, Store, Window};
use std::fs;

/// The same store in each of the earlier forms, with the header's length.
fn in_earlier_forms(store: &Store) -> [(usize, Vec<u8>); 4] {
    [
        (HEADER_1, in_form_1(store)),
        (HEADER_2, in_form_2(store)),
        (HEADER_3, in_form_3(store)),
        (HEADER_4, in_form_4(store)),
    ]
}

/// Whether a file is refused for the right reason where the number `index` of a header of so many bytes, or what follows
/// the header, is wrong.
fn due(header: usize, index: usize, error: &FileError) -> bool {
    use FileError::*;
    let (now, end) = (header == HEADER, header / 8 - 1);
    let lengths = end - if now { 4 } else { 3 }..end;
    match index {
        0 => matches!(error, Foreign),
        // where it is another form's number, the rest is not as that form has it
        1 => matches!(error, Form(_) | AreaLengths | Truncated { .. }),
        2 => matches!(error, Limits(Error::PageSize) | AreaLengths),
        // less room than is taken
        3..=5 if now => matches!(error, Limits(Error::Capacity) | Counters | Checksum),
        3..=5 => matches!(error, Limits(Error::Capacity) | AreaLengths),
        // what is taken: tickets, page numbers, node places
        6 | 7 | 9 if now => matches!(error, Counters | AreaLengths),
        // of the numbering, which may have any length that the file has
        47 if now => matches!(error, AreaLengths | Truncated { .. }),
        _ if lengths.contains(&index) => matches!(error, AreaLengths),
        _ => matches!(error, Checksum),
    }
}

/// Every bit of a file whose header has so many bytes, flipped.
fn flip_every_bit(folder: &Folder, header: usize, bytes: &[u8]) {
    for bit in 0..8 * bytes.len() {
        let mut damaged = bytes.to_vec();
        damaged[bit / 8] ^= 1 << (bit % 8);
        let error = refused(folder, &damaged);
        assert!(due(header, bit / 64, &error), "bit {bit}: {error}");
    }
}

#[test]
fn every_flipped_bit_is_found() {
    let folder = Folder::new("bits");
    flip_every_bit(&folder, HEADER, &saved(&folder, &in_work_on_lines()));
    for (header, bytes) in in_earlier_forms(&in_work()) {
        flip_every_bit(&folder, header, &bytes);
    }
}

#[test]
fn a_flipped_bit_anywhere_in_a_larger_store_is_found() {
    let folder = Folder::new("larger");
    let mut store = Store::format(Limits::worst(4_096, 64, 40, 8).unwrap()).unwrap();
    for k in 0..40 {
        update(&mut store, LIVE, (k > 4).then_some(k % 30), &[k as u8; 8]).unwrap();
    }
    let mut bytes = saved(&folder, &store);
    let mut at = 12_345;
    for _ in 0..60 {
        at = (at * 7_919 + 104_729) % (8 * bytes.len());
        bytes[at / 8] ^= 1 << (at % 8);
        let error = refused(&folder, &bytes);
        assert!(
            at < 8 * HEADER || matches!(error, FileError::Checksum),
            "bit {at}: {error}"
        );
        bytes[at / 8] ^= 1 << (at % 8);
    }
}

/// Whether a number of the header contradicts nothing: windows may be the site's, and where what is taken is all that a file
/// has, the store may have room for more pages or nodes.
fn may_be_so(header: usize, index: usize, number: u64) -> bool {
    let windows = [HEADER_4, HEADER].contains(&header) && WINDOWS.contains(&(8 * index));
    windows || header == HEADER && [3, 4].contains(&index) && number == 5_000
}

/// Each number of a header of so many bytes damaged; and once more with the checksum made right for it: it is still not
/// believed.
fn contradict(folder: &Folder, header: usize, bytes: &[u8]) {
    let counters = 6..header / 8 - 4;
    for index in 0..header / 8 {
        for other in [5_000, 1 << 32, 1 << 63, u64::MAX] {
            let mut changed = bytes.to_vec();
            set_number(&mut changed, index, other);
            let error = refused(folder, &changed);
            assert!(due(header, index, &error), "{index} as {other}: {error}");
            if index == header / 8 - 1 || may_be_so(header, index, other) {
                continue; // the checksum itself
            }
            let error = refused(folder, &sealed_after(header, changed));
            let counter = counters.contains(&index) && matches!(error, FileError::Counters);
            assert!(
                counter || due(header, index, &error),
                "number {index} as {other}: {error}"
            );
            assert!(!matches!(error, FileError::Checksum), "number {index}");
        }
    }
}

#[test]
fn a_header_that_contradicts_itself_is_refused() {
    let folder = Folder::new("header");
    let bytes = saved(&folder, &in_work_on_lines());
    contradict(&folder, HEADER, &bytes);
    fs::write(folder.file(), sealed(bytes)).unwrap();
    assert!(Store::load(folder.file()).unwrap() == in_work_on_lines());
    for (header, bytes) in in_earlier_forms(&in_work()) {
        contradict(&folder, header, &bytes);
    }
    contradict(&folder, HEADER_2, &in_form_2(&in_work_on_lines()));
    contradict(&folder, HEADER_3, &in_form_3(&in_work_on_lines()));
}

/// A file says how much room there is, and has what is taken of it: with more room it is just that store with more room.
#[test]
fn room_that_is_not_taken_is_in_the_header_alone() {
    let folder = Folder::new("room");
    let mut bytes = in_form_5(&in_work(), &[]);
    for (index, capacity) in [(3, 20), (4, 50), (5, 9)] {
        set_number(&mut bytes, index, capacity);
    }
    fs::write(folder.file(), sealed(bytes)).unwrap();
    let loaded = Store::load(folder.file()).unwrap();
    let more = in_work_of(limits(20, 50, 9));
    assert!(loaded == more);
}

/// Each of the numbers, with its checksum made right, is refused as a counter that no calls leave.
fn no_calls_leave(folder: &Folder, header: usize, bytes: &[u8], numbers: &[(usize, u64)]) {
    for (index, number) in numbers {
        let mut changed = bytes.to_vec();
        set_number(&mut changed, *index, *number);
        let error = refused(folder, &sealed_after(header, changed));
        assert!(
            matches!(error, FileError::Counters),
            "number {index} as {number}: {error}"
        );
    }
}

#[test]
fn counters_that_no_calls_leave_are_refused() {
    let folder = Folder::new("counters");
    let store = in_work_on_lines();
    // tickets, page numbers taken, updates with a version, node places taken, lines begun
    let over = [(6, 7), (7, 13), (8, 6), (9, 33), (8, 3), (8, 5)];
    let begun = [(10, 0), (10, 1), (10, 2), (10, 17), (10, 1 << 32)];
    let now = (HEADER, saved(&folder, &store));
    for (header, bytes) in [now, (HEADER_2, in_form_2(&store))] {
        no_calls_leave(&folder, header, &bytes, &over);
        no_calls_leave(&folder, header, &bytes, &begun);
    }
    // too few tickets for the updates; too few places, or too many, for their nodes
    for (header, bytes) in [(HEADER_2, in_form_2(&store)), (HEADER_4, in_form_4(&store))] {
        no_calls_leave(&folder, header, &bytes, &[(6, 3), (9, 13), (9, 15)]);
    }
}

/// A store changed by hand, as a file has it.
fn by_hand(store: Store, change: impl FnOnce(&mut State, &mut Areas)) -> Vec<u8> {
    let (mut state, windows, mut areas) = store.into_parts();
    change(&mut state, &mut areas);
    in_form_5(&Store::resume(state, windows, areas), &[])
}

/// The same where the file has as much as the counters say: as a counter alone they do not go with the lengths.
#[test]
fn what_is_taken_goes_with_the_updates() {
    let folder = Folder::new("taken");
    let bytes = saved(&folder, &in_work_on_lines());
    type Counter = fn(&mut State) -> &mut u64;
    let changes: [(usize, Counter, [u64; 3]); 3] = [
        (6, |s| &mut s.tickets, [0, 3, 4]),
        (7, |s| &mut s.taken, [0, 8, 10]),
        (9, |s| &mut s.places, [0, 13, 15]),
    ];
    for (index, counter, numbers) in changes {
        for number in numbers {
            let mut alone = bytes.clone();
            set_number(&mut alone, index, number);
            let error = refused(&folder, &sealed(alone));
            assert!(matches!(error, FileError::AreaLengths), "{error}");
            let whole = by_hand(in_work_on_lines(), |s, _| *counter(s) = number);
            let error = refused(&folder, &whole);
            assert!(
                matches!(error, FileError::Counters),
                "number {index} as {number}: {error}"
            );
        }
    }
}

/// A ticket's pages lie behind those of the one before it, up to those taken; an update's are all put.
#[test]
fn tickets_pages_that_no_calls_leave_are_refused() {
    let folder = Folder::new("tickets");
    let store = in_work_on_lines; // two pages each, but for the third one's page; the last has none put
    fs::write(folder.file(), by_hand(store(), |_, _| ())).unwrap();
    assert!(Store::load(folder.file()).unwrap() == store());
    let changes: [fn(&mut Record); 8] = [
        |r| r.n = 0,
        |r| r.n += 1,
        |r| r.n = 65,
        |r| r.n = u64::MAX,
        |r| r.number += 1,
        |r| r.number = u64::MAX,
        |r| r.put |= 1 << 2,
        |r| r.put |= 1 << 63,
    ];
    for (at, change) in (0..5).flat_map(|at| changes.map(|change| (at, change))) {
        let bytes = by_hand(store(), |_, areas| {
            change(&mut areas.parts_mut().register[at])
        });
        let error = refused(&folder, &bytes);
        assert!(matches!(error, FileError::Counters), "record {at}: {error}");
    }
    for at in 0..4 {
        let bytes = by_hand(store(), |_, areas| areas.parts_mut().register[at].put &= !1);
        let error = refused(&folder, &bytes);
        assert!(matches!(error, FileError::Counters), "record {at}: {error}");
    }
}

#[test]
fn lines_that_no_calls_leave_are_refused() {
    let folder = Folder::new("lines-that-no-calls-leave");
    let bytes = in_form_2(&in_work_on_lines());
    let header = HEADER_2;
    // source, start, last version assigned, last published, size in pages: of line 0, which begins from nothing,
    let line_0 = [(11, 1), (12, 1), (13, 1), (13, 3), (14, 3), (15, 4_097)];
    no_calls_leave(&folder, header, &bytes, &line_0);
    // of line 1, from version 1 of line 0, where that is the last published one,
    let line_1 = [(16, 1), (16, 2), (17, 0), (17, 2), (18, 1), (18, 3)];
    no_calls_leave(&folder, header, &bytes, &line_1);
    no_calls_leave(&folder, header, &bytes, &[(19, 0), (19, 3), (20, 4_097)]);
    // of line 2, from version 0 of line 1, and of lines that have not begun
    let line_2 = [(21, 2), (21, 15), (22, 1), (23, 0), (24, 2), (25, u64::MAX)];
    no_calls_leave(&folder, header, &bytes, &line_2);
    no_calls_leave(&folder, header, &bytes, &[(26, 1), (30, 1), (90, 1)]);
    // numbers that are right in the bits that a line is packed in
    let wide = [(11, 16), (13, 2 + (1 << 16)), (15, 3 + (1 << 32)), (21, 17)];
    no_calls_leave(&folder, header, &bytes, &wide);
}

/// The same in the lines' words: each number off by one, and numbers of lines that have not begun.
#[test]
fn packed_lines_that_no_calls_leave_are_refused() {
    let folder = Folder::new("packed-lines");
    let bytes = saved(&folder, &in_work_on_lines());
    let sources = [0x101, 0x110, 0x200, 0xf00, 0x1100, 0x1000_0000_0000_0100];
    no_calls_leave(&folder, HEADER, &bytes, &sources.map(|word| (11, word)));
    let word = |index| number(&bytes, index);
    // the start, the last version assigned, the last published; and a size in pages above the most
    for index in 12..15 {
        let start = (index, word(index) + 1);
        let assigned = [1 << 16, 0xffff_0000].map(|add| word(index).wrapping_add(add));
        let others = [word(index) | 4 << 32, word(index) | 0x1001 << 48];
        no_calls_leave(&folder, HEADER, &bytes, &[start]);
        no_calls_leave(&folder, HEADER, &bytes, &assigned.map(|word| (index, word)));
        no_calls_leave(&folder, HEADER, &bytes, &others.map(|word| (index, word)));
    }
    let unbegun = [(15, 1), (15, 1 << 48), (27, 1 << 16), (27, 1 << 63)];
    no_calls_leave(&folder, HEADER, &bytes, &unbegun);
}

/// A file with a window in a place, and its checksum made right.
fn with_window(bytes: &[u8], place: usize, window: Window) -> Vec<u8> {
    let mut bytes = bytes.to_vec();
    let at = WINDOWS.start + 4 * place;
    bytes[at..at + 2].copy_from_slice(&window.from.to_le_bytes());
    bytes[at + 2..at + 4].copy_from_slice(&window.to.to_le_bytes());
    sealed(bytes)
}

/// Equal ends, minutes past the week, and a place that is not used before one that is.
#[test]
fn windows_that_no_call_leaves_are_refused() {
    let folder = Folder::new("damaged-windows");
    let mut store = in_work();
    store.windows_are("1,2\n3,4\n");
    let bytes = saved(&folder, &store);
    let ends = [(5, 5), (0, 10_080), (10_080, 0), (3, 65_535), (65_535, 3)];
    let ends = (0..3).flat_map(|place| ends.map(|(from, to)| (place, from, to)));
    let gaps = [(0, 0, 0), (3, 1, 2), (31, 1, 2), (31, 1, 1)];
    for (place, from, to) in ends.chain(gaps) {
        let window = Window { from, to };
        let error = refused(&folder, &with_window(&bytes, place, window));
        assert!(
            matches!(error, FileError::Windows),
            "{window} in place {place}: {error}"
        );
    }
    for (place, from, to, list) in [
        (1, 0, 0, "1,2\n"),
        (1, 0, 10_079, "1,2\n0,10079\n"),
        (2, 10_079, 0, "1,2\n3,4\n10079,0\n"),
    ] {
        let changed = with_window(&bytes, place, Window { from, to });
        fs::write(folder.file(), changed).unwrap();
        let loaded = Store::load(folder.file()).unwrap();
        assert_eq!(loaded.windows().to_string(), list);
    }
}

/// Each number of a record that follows from others, of an update or of none, and each that it follows from.
#[test]
fn records_whose_numbers_do_not_follow_are_refused() {
    let folder = Folder::new("records");
    let bytes = saved(&folder, &in_work_on_lines());
    // name, first page, top, past, height, size, count; of the first page and the size those that change what follows
    let numbers = [5, 6, 8, 9, 10, 11, 12];
    let register = (bytes.len() - 5 * RECORD) / 8; // without a numbering, the records are last
    for record in 0..5 {
        for of_record in numbers {
            let index = register + record * RECORD / 8 + of_record;
            let old = number(&bytes, index);
            let others = match (of_record, record) {
                (5, 0..=3) => vec![0],
                (5, _) => vec![1, 65_537],
                (6 | 11, 0..=3) => vec![old + 5, 1 << 32, u64::MAX],
                (6 | 11, _) => vec![], // nothing follows without an update
                _ => vec![old + 1, old.wrapping_sub(1), old ^ 1 << 40, u64::MAX],
            };
            for other in others {
                no_calls_leave(&folder, HEADER, &bytes, &[(index, other)]);
            }
        }
    }
}

/// A record's span that no call leaves, of an update or of none: there is no height for it.
#[test]
fn spans_that_no_calls_leave_are_not_saved() {
    let folder = Folder::new("spans");
    let mut spans: Vec<u64> = (0..64).map(|height| 1 << height).collect();
    spans.extend([0, 3, 5, 4_095, 4_097, u64::MAX]);
    for record in 0..5 {
        for span in &spans {
            let (state, windows, mut areas) = in_work_on_lines().into_parts();
            let due = std::mem::replace(&mut areas.parts_mut().register[record].span, *span);
            let saved = Store::resume(state, windows, areas).save(folder.file());
            assert_eq!(saved.is_ok(), *span == due, "{span} in record {record}");
        }
    }
}

/// In the earlier forms, a place that the updates before do not lead to, and pages and sizes that no update has.
#[test]
fn records_of_earlier_forms_that_no_calls_leave_are_refused() {
    let folder = Folder::new("old-records");
    let (one, two) = (in_form_1(&in_work()), in_form_2(&in_work_on_lines()));
    // the second update's record in both: its first page, last page, size, first place and nodes woven
    let (at_1, at_2) = ((one.len() - 3 * 80) / 8 + 5, (two.len() - 5 * 120) / 8 + 6);
    for (header, bytes, at) in [(HEADER_1, one, at_1), (HEADER_2, two, at_2)] {
        for wrong in [
            [(at, 4), (at, u64::MAX)],
            [(at + 1, 0), (at + 1, 4)],
            [(at + 2, 1), (at + 2, 4_097)],
            [(at + 3, 0), (at + 3, u64::MAX)],
            [(at + 4, 40), (at + 4, u64::MAX)],
        ] {
            no_calls_leave(&folder, header, &bytes, &wrong);
        }
    }
}

#[test]
fn counters_of_form_1_that_no_calls_leave_are_refused() {
    let folder = Folder::new("old-counters");
    let bytes = in_form_1(&in_work());
    // tickets, page numbers taken, versions assigned, node places taken, versions published, size in pages
    let over = [(6, 5), (7, 7), (8, 4), (9, 17), (10, 3), (11, 4_097)];
    no_calls_leave(&folder, HEADER_1, &bytes, &over);
    no_calls_leave(&folder, HEADER_1, &bytes, &[(6, 1), (8, 0)]);
}

/// Every length that is too short, of a file whose header has so many bytes. Of the forms the one that is written is
/// expected where not even the form's number is there.
fn cut_off(folder: &Folder, header: usize, bytes: &[u8]) {
    let whole = bytes.len() as u64;
    for length in 0..bytes.len() {
        match refused(folder, &bytes[..length]) {
            FileError::Truncated { expected, found } => {
                assert_eq!(found, length as u64);
                let due = match length {
                    0..=15 => HEADER as u64,
                    _ if length < header => header as u64,
                    _ => whole,
                };
                assert_eq!(expected, due, "{length} bytes");
            }
            other => panic!("{length} bytes of {whole}: {other}"),
        }
    }
}

#[test]
fn every_truncation_is_found() {
    let folder = Folder::new("truncation");
    cut_off(&folder, HEADER, &saved(&folder, &in_work()));
    cut_off(&folder, HEADER, &in_form_5(&in_work(), b"a numbering"));
    for (header, bytes) in in_earlier_forms(&in_work()) {
        cut_off(&folder, header, &bytes);
    }
}

#[test]
fn extra_bytes_are_found() {
    let folder = Folder::new("extra");
    let store = in_work();
    let old = in_earlier_forms(&store).map(|(_, bytes)| bytes);
    let now = [saved(&folder, &store), in_form_5(&store, b"a numbering")];
    for bytes in old.into_iter().chain(now) {
        for extra in [1, 8, 80, 120, 144, 4_096] {
            let longer = [&bytes[..], &vec![0; extra]].concat();
            let error = refused(&folder, &longer);
            let (expected, found) = (bytes.len() as u64, longer.len() as u64);
            assert!(
                matches!(error, FileError::TooLong { expected: e, found: f } if (e, f) == (expected, found))
            );
        }
    }
}

#[test]
fn other_files_are_refused() {
    let folder = Folder::new("other");
    for bytes in [
        &b"x"[..],
        b"PITSTONE",
        b"FORMAT,16,4,8,2\n",
        &[0; 5_000],
        &[0xff; 760],
    ] {
        assert!(matches!(refused(&folder, bytes), FileError::Foreign));
    }
    for form in [0, 6, u64::MAX] {
        let mut other = saved(&folder, &in_work());
        set_number(&mut other, 1, form);
        let error = refused(&folder, &sealed(other));
        assert!(matches!(error, FileError::Form(f) if f == form));
    }
    let missing = Store::load(folder.0.join("none")).unwrap_err();
    assert!(
        matches!(missing, FileError::Io { error: e, .. } if e.kind() == std::io::ErrorKind::NotFound)
    );
    assert!(matches!(Store::load(&folder.0), Err(FileError::Io { .. })));
}

/// A header that asks for 268 MB, and nothing after it: refused by the file's length, before memory is taken.
#[test]
fn a_short_file_of_large_lengths_is_refused() {
    let folder = Folder::new("large");
    let mut bytes = saved(&folder, &in_work())[..HEADER].to_vec();
    let (pages, nodes, updates) = (65_535, 131_072, 4_096);
    let limits = [(2, 4_096), (3, pages), (4, nodes), (5, updates)];
    let taken = [(6, updates), (7, pages), (9, nodes)];
    let lengths = [(44, 4_096 * pages), (45, 8 * nodes), (46, 144 * updates)];
    let numbering = [(47, 1_000)];
    for (index, number) in [&limits[..], &taken, &lengths, &numbering].concat() {
        set_number(&mut bytes, index, number);
    }
    assert!(matches!(
        refused(&folder, &sealed(bytes)),
        FileError::Truncated {
            expected: 270_071_152,
            found: 392
        }
    ));
}

/// A numbering that is longer than any is refused by its length, whatever the file's: a file can be long without a disk that is.
#[test]
fn a_numbering_of_any_length_is_refused_before_memory_is_taken() {
    let folder = Folder::new("any-numbering");
    let bytes = saved(&folder, &in_work());
    for length in [(1 << 28) + 1, 1 << 40, 1 << 62, u64::MAX - 391, u64::MAX] {
        let mut bytes = bytes.clone();
        set_number(&mut bytes, 47, length);
        let error = refused(&folder, &sealed(bytes));
        assert!(matches!(error, FileError::AreaLengths), "{length}: {error}");
    }
}
