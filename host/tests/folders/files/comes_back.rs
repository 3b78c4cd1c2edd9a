//! What was saved comes back just as it was.

use super::scene::{
    checksum, in_form_1, in_form_2, in_form_3, in_form_4, in_form_5, in_work, in_work_on_lines,
    number, saved, Folder, HEADER, RECORD, WINDOWS,
};
use crate::support::call::Begin;
use crate::updates::{assign, fills, limits, of_three_versions, put_all, update, ANY_TIME, LIVE};
use pit_host::{
    Error, FileError, Limits, Line, Minute, PartsMut, Published, Shared, Storage, Store, Ticket,
    Version,
};
use std::fs;

#[test]
fn a_store_comes_back_at_every_stage() {
    let folder = Folder::new("stages");
    let mut store = Store::format(limits(6, 10, 3)).unwrap();
    let again = |store: &Store| {
        store.save(folder.file()).unwrap();
        assert!(Store::load(folder.file()).unwrap() == *store);
        assert_eq!(folder.names(), ["store"]);
    };
    again(&store);
    update(&mut store, LIVE, None, &[1, 2]).unwrap();
    again(&store);
    let ticket = store.begin(2).unwrap();
    again(&store);
    for i in 0..2 {
        store.put(ticket, i, &[3 + i as u8; 16]).unwrap();
        again(&store);
    }
    for _ in 0..store.append(LIVE, ticket).unwrap().nodes {
        again(&store);
        store.weave(ticket).unwrap();
    }
    again(&store);
    let published = store.publish(LIVE, ANY_TIME).unwrap();
    assert!(published.version().is_some());
    again(&store);
}

#[test]
fn a_loaded_store_goes_on_as_the_saved_one() {
    let folder = Folder::new("goes-on");
    let mut store = in_work();
    store.save(folder.file()).unwrap();
    let mut loaded = Store::load(folder.file()).unwrap();
    for store in [&mut store, &mut loaded] {
        while store.weave(Ticket(2)).unwrap().rest > 0 {}
        assert_eq!(
            store.publish(LIVE, ANY_TIME),
            Ok(Published::Now(Version(2)))
        );
        store.put(Ticket(3), 0, &[6; 16]).unwrap();
        for _ in 0..store.append(LIVE, Ticket(3)).unwrap().nodes {
            store.weave(Ticket(3)).unwrap();
        }
        assert_eq!(
            store.publish(LIVE, ANY_TIME),
            Ok(Published::Now(Version(3)))
        );
        assert_eq!(fills(store, LIVE, Version(3)), Ok(vec![1, 3, 4, 6, 5]));
        assert_eq!(put_all(store, &[7]), Err(Error::PagesFull));
    }
    assert!(store == loaded);
}

#[test]
fn lines_come_back_and_go_on() {
    let folder = Folder::new("lines");
    let mut store = in_work_on_lines();
    store.save(folder.file()).unwrap();
    let mut loaded = Store::load(folder.file()).unwrap();
    assert!(loaded == store);
    for store in [&mut store, &mut loaded] {
        for ticket in [2, 4].map(Ticket) {
            while store.weave(ticket).unwrap().rest > 0 {}
        }
        assert_eq!(
            store.publish(LIVE, ANY_TIME),
            Ok(Published::Now(Version(2)))
        );
        assert_eq!(store.publish(Line(1), ANY_TIME), Ok(Published::Waiting));
        assert_eq!(
            store.publish(Line(2), ANY_TIME),
            Ok(Published::Now(Version(1)))
        );
        assert_eq!(store.line_from(Line(1), Version(2)), Line(3));
        let pages = [(0, 2, &[1, 3, 4][..]), (1, 2, &[1, 2, 5]), (2, 1, &[6, 7])];
        for (line, version, pages) in pages.into_iter().chain([(3, 2, &[1, 2, 5][..])]) {
            let read = fills(store, Line(line), Version(version));
            assert_eq!(read.as_deref(), Ok(pages), "line {line}");
        }
    }
    assert!(store == loaded);
}

/// A loaded store holds as before, on every line, and what was held is published after the window.
#[test]
fn windows_come_back_and_hold() {
    let folder = Folder::new("windows");
    let mut store = in_work_on_lines();
    while store.weave(Ticket(2)).unwrap().rest > 0 {}
    store.windows_are("600,660\n10000,30\n");
    store.save(folder.file()).unwrap();
    let mut loaded = Store::load(folder.file()).unwrap();
    assert!(loaded == store);
    for store in [&mut store, &mut loaded] {
        for line in [LIVE, Line(1), Line(2)] {
            for minute in [600, 659, 10_000, 10_079, 0, 29].map(Minute) {
                assert_eq!(store.publish(line, minute), Ok(Published::Held));
            }
        }
        let published = Ok(Published::Now(Version(2)));
        assert_eq!(store.publish(LIVE, Minute(660)), published);
    }
    assert!(store == loaded);
}

#[test]
fn every_number_of_windows_comes_back() {
    let folder = Folder::new("each-windows");
    let mut store = in_work();
    for windows in 0..=32 {
        let lines = (0..windows).map(|k| format!("{},{}\n", 325 * k, 10_079 - 325 * k));
        let list: String = lines.collect();
        store.windows_are(&list);
        store.save(folder.file()).unwrap();
        let loaded = Store::load(folder.file()).unwrap();
        assert!(loaded == store, "{windows} windows");
        assert_eq!(loaded.windows().to_string(), list);
    }
    store.windows_are("");
    store.save(folder.file()).unwrap();
    assert!(Store::load(folder.file()).unwrap() == in_work());
}

#[test]
fn the_file_is_as_documented() {
    let folder = Folder::new("documented");
    let mut store = in_work_on_lines();
    store.windows_are("600,660\n10000,30\n1,2\n");
    let bytes = saved(&folder, &store);
    let (s, areas) = (store.state(), store.areas());
    assert_eq!(&bytes[..8], b"PITSTORE");
    #[rustfmt::skip]
    let counters = [5, s.size, s.pages, s.nodes, s.updates, s.tickets, s.taken, s.assigned, s.places, s.begun];
    assert_eq!(counters, [5, 16, 12, 32, 6, 5, 9, 4, 14, 3]);
    // line 2 from line 1; of each line the start, the last version assigned and published, and the size in pages
    let begun = [[0, 2, 1, 3], [1, 2, 2, 3], [0, 1, 0, 2]];
    let packed = begun.map(|l| l[0] | l[1] << 16 | l[2] << 32 | l[3] << 48);
    let lines = [&[0x100], &packed[..], &[0; 13]].concat();
    for (index, wanted) in (1..).zip(counters.into_iter().chain(lines)) {
        assert_eq!(number(&bytes, index), wanted, "number {index}");
    }
    let windows = [600u16, 660, 10_000, 30, 1, 2].into_iter().chain([0; 58]);
    let windows: Vec<u8> = windows.flat_map(u16::to_le_bytes).collect();
    assert_eq!(bytes[WINDOWS], windows);
    let lengths = [44, 45, 46, 47].map(|at| number(&bytes, at));
    assert_eq!(lengths, [9 * 16, 14 * 8, 5 * 144, 0]);
    let covered = bytes[..384].iter().chain(&bytes[HEADER..]);
    assert_eq!(number(&bytes, 48), checksum(covered.copied()));

    let nodes = areas.nodes()[..2 * 14].iter();
    let nodes: Vec<u8> = nodes.flat_map(|number| number.to_le_bytes()).collect();
    let (pages, rest) = bytes[HEADER..].split_at(9 * 16);
    assert_eq!(
        (pages, &rest[..14 * 8]),
        (&areas.pages()[..9 * 16], &nodes[..])
    );
    assert_eq!(rest.len(), 14 * 8 + 5 * RECORD);
    assert_eq!(bytes, in_form_5(&store, &[]));
}

/// Each call adds just what it takes, and calls that take nothing add nothing.
#[test]
fn a_files_length_goes_with_what_is_taken() {
    let folder = Folder::new("length");
    let most = Limits::new(16, 65_535, 131_072, 4_096);
    let mut store = Store::format(most).unwrap();
    let mut due = HEADER as u64;
    let saves_as = |store: &Store, due: u64| {
        assert_eq!(saved(&folder, store).len() as u64, due);
        assert!(Store::load(folder.file()).unwrap() == *store);
    };
    saves_as(&store, due);
    for n in [3, 64] {
        let ticket = store.begin(n).unwrap();
        due += 16 * n + RECORD as u64;
        saves_as(&store, due);
        (0..n).for_each(|i| store.put(ticket, i, &[7; 16]).unwrap());
        saves_as(&store, due);
        let nodes = store.append(LIVE, ticket).unwrap().nodes;
        due += 8 * nodes;
        saves_as(&store, due);
        for _ in 0..nodes {
            store.weave(ticket).unwrap();
        }
        let published = store.publish(LIVE, ANY_TIME).unwrap();
        assert!(published.version().is_some());
        store.line_from(LIVE, Version(1));
        store.windows_are(
            "600,660
",
        );
        saves_as(&store, due);
    }
    assert!(
        due < 4_096,
        "a few updates are a small file, not {due} bytes"
    );
}

/// What a host has put by hand where nothing is put or taken is not saved: it comes back as FORMAT leaves it.
#[test]
fn what_is_not_taken_comes_back_as_format_leaves_it() {
    let folder = Folder::new("untaken");
    let store = in_work();
    let (state, windows, mut areas) = store.clone().into_parts();
    let lent = areas.parts_mut();
    lent.pages[4 * 16..5 * 16].fill(9); // of the open ticket, whose other page is put
    lent.nodes[2 * state.places as usize..].fill(9);
    lent.register[state.tickets as usize].n = 9;
    let by_hand = Store::resume(state, windows, areas);
    assert!(by_hand != store);
    by_hand.save(folder.file()).unwrap();
    assert!(Store::load(folder.file()).unwrap() == store);
}

/// A store whose callers' numbers are not its own is loaded with these, or not at all.
#[test]
fn a_store_is_not_loaded_without_its_callers_numbers() {
    let folder = Folder::new("numbering");
    let shared = Shared::new(of_three_versions());
    let larger = limits(40, 80, 30);
    shared.rebuild(larger, &[(LIVE, Version(2))]).unwrap();
    shared.save(folder.file()).unwrap();
    let refused = Store::load(folder.file());
    assert!(matches!(refused, Err(FileError::Rebuilt)));
    let loaded = Shared::load(folder.file()).unwrap();
    assert!(loaded.to_store() == shared.to_store());
    assert_eq!(loaded.versions(LIVE), Ok(vec![Version(2), Version(3)]));

    // numbers that no rebuild writes
    for length in [1, 7, 9, 5_000] {
        let last_part = vec![length as u8; length];
        fs::write(folder.file(), in_form_5(&in_work(), &last_part)).unwrap();
        let refused = [
            Store::load(folder.file()).map(drop),
            Shared::load(folder.file()).map(drop),
        ];
        for refused in refused.map(Result::unwrap_err) {
            assert!(matches!(refused, FileError::Numbers), "{refused}");
        }
    }
    // a journal's salt alone, as a folder's store has it
    fs::write(folder.file(), in_form_5(&in_work(), &[7; 8])).unwrap();
    assert!(Store::load(folder.file()).unwrap() == in_work());
}

/// A file from before there were lines is loaded as just the store that the same calls on line 0 leave, at every stage.
#[test]
fn a_file_of_form_1_is_loaded_with_line_0_alone() {
    let folder = Folder::new("form-1");
    let again = |store: &Store| {
        fs::write(folder.file(), in_form_1(store)).unwrap();
        assert!(Store::load(folder.file()).unwrap() == *store);
    };
    again(&Store::format(limits(1, 1, 1)).unwrap());
    again(&of_three_versions());
    let mut store = in_work();
    again(&store);
    while store.weave(Ticket(2)).unwrap().rest > 0 {}
    again(&store);
    let published = store.publish(LIVE, ANY_TIME).unwrap();
    assert!(published.version().is_some());
    again(&store);

    fs::write(folder.file(), in_form_1(&store)).unwrap();
    let mut loaded = Store::load(folder.file()).unwrap();
    for store in [&mut store, &mut loaded] {
        let plan = store.line_from(LIVE, Version(1));
        assert_eq!(plan, Line(1));
        store.put(Ticket(3), 0, &[6; 16]).unwrap();
        for _ in 0..store.append(plan, Ticket(3)).unwrap().nodes {
            store.weave(Ticket(3)).unwrap();
        }
        assert_eq!(
            store.publish(plan, ANY_TIME),
            Ok(Published::Now(Version(2)))
        );
        assert_eq!(fills(store, plan, Version(2)), Ok(vec![1, 2, 6, 5]));
        assert_eq!(fills(store, LIVE, Version(2)), Ok(vec![1, 3, 4]));
        store.save(folder.file()).unwrap(); // in the form of now
        assert!(Store::load(folder.file()).unwrap() == *store);
    }
    assert!(store == loaded);
}

/// A file with its lines' numbers one by one is loaded as just the store that the same calls leave, at every stage.
#[test]
fn a_file_of_form_2_is_loaded() {
    let folder = Folder::new("form-2");
    let again = |store: &Store| {
        fs::write(folder.file(), in_form_2(store)).unwrap();
        assert!(Store::load(folder.file()).unwrap() == *store);
    };
    for store in [of_three_versions(), in_work(), in_work_on_lines()] {
        again(&store);
    }
    // sixteen lines in a chain, of which each has a higher tree than the one before, or the same
    let mut store = Store::format(limits(200, 1_000, 40)).unwrap();
    again(&store);
    for line in (0..16).map(Line) {
        let whole = update(&mut store, line, None, &[7; 9]).unwrap();
        assign(&mut store, line, Some(line.0), &[8]).unwrap();
        if line < Line(15) {
            store.line_from(line, whole);
        }
        again(&store);
    }
}

/// A file from before there were windows is loaded as the store without any, and goes on with some.
#[test]
fn a_file_of_form_3_is_loaded_without_windows() {
    let folder = Folder::new("form-3");
    for mut store in [of_three_versions(), in_work(), in_work_on_lines()] {
        fs::write(folder.file(), in_form_3(&store)).unwrap();
        let mut loaded = Store::load(folder.file()).unwrap();
        assert!(loaded == store);
        for store in [&mut store, &mut loaded] {
            let published = store.publish(LIVE, Minute(600));
            assert_eq!(published, Ok(Published::Waiting));
            store.windows_are("600,660\n");
            let published = store.publish(LIVE, Minute(600));
            assert_eq!(published, Ok(Published::Held));
        }
        loaded.save(folder.file()).unwrap(); // in the form of now
        assert!(Store::load(folder.file()).unwrap() == store);
    }
}

/// A file with the areas whole is loaded as just the store that was saved, at every stage, with its windows.
#[test]
fn a_file_of_form_4_is_loaded() {
    let folder = Folder::new("form-4");
    let mut with_windows = in_work_on_lines();
    with_windows.windows_are("600,660\n10000,30\n");
    let new = Store::format(limits(1, 1, 1)).unwrap();
    let stores = [new, of_three_versions(), in_work(), with_windows];
    for store in stores {
        let bytes = in_form_4(&store);
        let (s, areas) = (store.state(), store.areas());
        let register = areas.register().len() * RECORD;
        let whole = areas.pages().len() + 4 * areas.nodes().len() + register;
        assert_eq!(bytes.len(), 384 + whole, "{s:?}");
        fs::write(folder.file(), bytes).unwrap();
        let loaded = Store::load(folder.file()).unwrap();
        assert!(loaded == store);
        loaded.save(folder.file()).unwrap(); // in the form of now
        assert!(Store::load(folder.file()).unwrap() == store);
    }
}

#[test]
fn a_lent_store_is_saved_too() {
    let folder = Folder::new("lent");
    let mut store = in_work();
    store.windows_are("600,660\n");
    let (state, windows, mut areas) = store.clone().into_parts();
    let lent: Store<PartsMut<'_>> = Store::resume(state, windows, areas.parts_mut());
    lent.save(folder.file()).unwrap();
    assert!(Store::load(folder.file()).unwrap() == store);
}

/// The most pages, nodes and updates, of pages of this size, with an update of the most pages, saved and loaded.
fn the_most_of(page_size: u64) {
    let folder = Folder::new(&format!("most_{page_size}"));
    let most = Limits::new(page_size, 65_535, 131_072, 4_096);
    let mut store = Store::format(most).unwrap();
    update(&mut store, LIVE, None, &[9; 64]).unwrap();
    let bytes = saved(&folder, &store);
    let taken = 64 * page_size as usize + 127 * 8 + RECORD;
    assert_eq!(bytes.len(), HEADER + taken);
    assert!(Store::load(folder.file()).unwrap() == store);
}

#[test]
fn the_most_of_the_smallest_pages() {
    the_most_of(16);
}

#[test]
#[ignore = "268 MB of memory: cargo test -- --ignored the_largest_store"]
fn the_largest_store() {
    the_most_of(4_096);
}

/// With every page, node place and record taken the file has the areas whole.
#[test]
fn a_full_store_comes_back() {
    let folder = Folder::new("full");
    let mut store = Store::format(limits(1_024, 16 * 127, 16)).unwrap();
    for k in 0..16 {
        let at = (k > 0).then_some(0);
        update(&mut store, LIVE, at, &[k; 64]).unwrap();
    }
    let s = store.state();
    let left = [s.pages - s.taken, s.nodes - s.places, s.updates - s.tickets];
    assert_eq!(left, [0; 3]);
    let bytes = saved(&folder, &store);
    assert_eq!(
        bytes.len(),
        HEADER + 1_024 * 16 + 16 * 127 * 8 + 16 * RECORD
    );
    assert!(Store::load(folder.file()).unwrap() == store);
}
