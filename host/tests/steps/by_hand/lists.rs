//! Windows beyond what a script says: long lists and long texts, stores taken apart, and what a call leaves as it was.

use super::windows::{host_same_as_model, list};
use crate::scripts::windows::{text_of, FAULTS};
use crate::support::updates::{assign, limits, ANY_TIME, LIVE};
use pit_host::{Areas, Error, Line, Minute, Published, State, Storage, Store, Version};
use pit_host::{Window, Windows};

/// An empty store.
fn empty() -> Store {
    Store::format(limits(4, 8, 2)).expect("limits in range")
}

/// A store with a version that is due, and this list.
fn with_one_due(text: &str) -> Store {
    let mut store = empty();
    let (ticket, assigned) = assign(&mut store, LIVE, None, &[1, 2]).expect("room");
    for _ in 0..assigned.nodes {
        store.weave(ticket).expect("a node is left");
    }
    store.set_windows(text).expect("a good list");
    store
}

/// The number of the row that refuses a list; 0 where it is taken.
fn row_of(store: &mut Store, text: impl AsRef<[u8]>) -> u64 {
    let set = store.set_windows(text);
    set.map_or_else(|refused| refused.error().number(), |()| 0)
}

#[test]
fn held_moves_nothing() {
    let mut store = with_one_due("100,200\n");
    let before = store.clone();
    for minute in (100..200).map(Minute) {
        assert_eq!(store.publish(LIVE, minute), Ok(Published::Held));
        assert!(store == before, "{minute}");
    }
    let now = Published::Now(Version(1));
    assert_eq!(store.publish(LIVE, Minute(99)), Ok(now));
    assert_eq!(store.areas(), before.areas());
    assert_eq!(store.windows(), before.windows());
}

/// SETWINDOWS changes the windows and nothing else; refused, not even these.
#[test]
fn setting_windows_moves_nothing_else() {
    let mut store = with_one_due("100,200\n");
    let before = store.clone();
    assert_eq!(row_of(&mut store, "100,100\n"), 23);
    assert!(store == before);
    assert_eq!(row_of(&mut store, "1,2\n".repeat(33)), 24);
    assert!(store == before);
    assert_eq!(row_of(&mut store, "1,2\n10079,3\n"), 0);
    assert!(store.state() == before.state() && store.areas() == before.areas());
    let mut due = Windows::default();
    due.places[0] = Window { from: 1, to: 2 };
    due.places[1] = Window {
        from: 10_079,
        to: 3,
    };
    assert_eq!(store.windows(), due);
    assert_eq!(row_of(&mut store, "100,200\n"), 0);
    assert!(store == before);
}

/// A fault of every kind at every line of lists of many lengths, also past the 32nd line: 23, and the old list stays.
#[test]
fn a_fault_of_every_kind_at_every_line() {
    let mut store = empty();
    store.set_windows("100,200\n").expect("a good list");
    let before = store.clone();
    for count in [1, 2, 31, 32, 33, 34, 40] {
        for (at, fault) in (0..count).flat_map(|at| FAULTS.map(|fault| (at, fault))) {
            let mut lines: Vec<Vec<u8>> = list(count).into_iter().map(String::into).collect();
            lines[at as usize] = fault.to_vec();
            let row = row_of(&mut store, text_of(&lines));
            let shown = fault.escape_ascii();
            assert_eq!(row, 23, "{shown} as line {} of {count}", at + 1);
        }
        let mut unended = text_of(&list(count));
        unended.pop();
        assert_eq!(row_of(&mut store, unended), 23, "{count} lines, unended");
        assert!(store == before);
        let row = if count > 32 { 24 } else { 0 };
        assert_eq!(row_of(&mut store.clone(), text_of(&list(count))), row);
    }
}

/// Every byte in place of a byte of a good list, and between two: what stays a list is taken, as the model takes it.
#[test]
fn every_byte_at_every_place_of_a_list() {
    let good = b"7,10079\n10,9\n";
    let mut lines = vec![b"FORMAT,16,4,8,2".to_vec()];
    for at in 0..=good.len() {
        for byte in 0..=255 {
            let (front, rest) = good.split_at(at);
            let after = &rest[1.min(rest.len())..];
            lines.push([&b"SETWINDOWS,"[..], front, &[byte], rest].concat());
            lines.push([&b"SETWINDOWS,"[..], front, &[byte], after].concat());
        }
    }
    let answers = host_same_as_model(lines);
    let taken = answers.iter().filter(|answer| *answer == "done").count();
    assert!(taken > 100, "{taken} lists taken");
}

/// Each pair of ends that differ, near the week's ends and between: the minutes inside are those of the clock's way from
/// one to the other.
#[test]
fn every_minute_of_the_week() {
    let mut store = empty();
    let ends = [0, 1, 5_039, 5_040, 10_078, 10_079];
    for (from, to) in ends.iter().flat_map(|from| ends.map(|to| (*from, to))) {
        if from == to {
            continue;
        }
        store
            .set_windows(format!("{from},{to}\n"))
            .expect("a window");
        let length = (to + 10_080 - from) % 10_080;
        for since in 0..10_080 {
            let minute = Minute((from + since) % 10_080);
            let held = store.publish(LIVE, minute) == Ok(Published::Held);
            assert_eq!(held, since < length, "{from},{to} at {minute}");
        }
    }
}

/// Many lines, and lines of many bytes: refused by the rows, as ever.
#[test]
fn long_texts() {
    let mut store = with_one_due("100,200\n");
    let before = store.clone();
    let many = "1,2\n".repeat(100_000);
    assert_eq!(row_of(&mut store, &many), 24);
    assert_eq!(row_of(&mut store, format!("{many}1,1\n")), 23);
    assert_eq!(row_of(&mut store, format!("{many}1,2")), 23);
    assert_eq!(row_of(&mut store, "\n".repeat(100_000)), 23);
    for digits in ["0", "1", "9", ","] {
        let long = digits.repeat(1_000_000);
        assert_eq!(row_of(&mut store, format!("{long},2\n")), 23);
        assert_eq!(row_of(&mut store, format!("1,{long}\n")), 23);
        assert_eq!(row_of(&mut store, long), 23);
    }
    assert!(store == before);
}

/// A store's parts with one more update than the register has.
fn with_a_record_too_few(store: Store) -> Store<Areas> {
    let (mut state, windows, areas) = store.into_parts();
    state.updates += 1;
    Store::resume(state, windows, areas)
}

/// 3 comes before 23 and 24, and before 20, 22 and held.
#[test]
fn row_3_comes_first() {
    let mut store = with_a_record_too_few(with_one_due("100,200\n"));
    let before = store.clone();
    for text in ["", "1,2\n", "1,1\n", "1,2"] {
        assert_eq!(row_of(&mut store, text), 3, "{text:?}");
    }
    assert_eq!(row_of(&mut store, "1,2\n".repeat(33)), 3);
    for (line, minute) in [(0, 150), (0, 250), (0, 10_080), (1, 150), (1, 10_080)] {
        let refused = store.publish(Line(line), Minute(minute));
        assert_eq!(refused, Err(Error::AreaLength), "{line}, {minute}");
    }
    assert!(store == before);
}

/// 19 comes last, after held: inside a window no record is looked at.
#[test]
fn row_19_comes_after_held() {
    let (state, windows, mut areas) = with_one_due("100,200\n").into_parts();
    areas.parts_mut().register[0].name = 7;
    let mut store = Store::resume(state, windows, areas);
    let before = store.clone();
    assert_eq!(store.publish(LIVE, Minute(99)), Err(Error::Damaged));
    assert_eq!(store.publish(LIVE, Minute(100)), Ok(Published::Held));
    assert_eq!(store.publish(LIVE, Minute(199)), Ok(Published::Held));
    assert_eq!(store.publish(LIVE, Minute(200)), Err(Error::Damaged));
    assert_eq!(
        store.publish(LIVE, Minute(10_080)),
        Err(Error::NoSuchMinute)
    );
    assert_eq!(store.publish(Line(1), Minute(200)), Err(Error::NoSuchLine));
    assert!(store == before);
}

/// No line has begun: SETWINDOWS asks for nothing but the lengths.
#[test]
fn windows_of_any_store_whose_areas_fit() {
    let areas = Areas::new(&limits(4, 8, 2)).expect("limits in range");
    let mut state = State::default();
    (state.size, state.pages, state.nodes, state.updates) = (16, 4, 8, 2);
    let mut store = Store::resume(state, Windows::default(), areas);
    assert_eq!(store.publish(LIVE, ANY_TIME), Err(Error::NoSuchLine));
    assert_eq!(row_of(&mut store, "1,2\n"), 0);
    assert_eq!(store.windows().list(), [Window { from: 1, to: 2 }]);
}

/// Written out and read again, the windows are the same.
#[test]
fn windows_come_back_from_their_text() {
    let mut store = empty();
    for count in [0, 1, 2, 31, 32] {
        store.set_windows(text_of(&list(count))).expect("a list");
        let windows = store.windows();
        assert_eq!(windows.list().len() as u64, count);
        let text = windows.to_string();
        assert_eq!(text.as_bytes(), text_of(&list(count)));
        store.set_windows("5,6\n").expect("a list");
        store.set_windows(text).expect("what was written");
        assert_eq!(store.windows(), windows);
    }
}
