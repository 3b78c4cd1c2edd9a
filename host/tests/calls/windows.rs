//! A site's windows from its text, what is said of a wrong one, and the minute of the week by a clock.

use crate::refusals::{self, at_all_stages};
use crate::support::call::Begin;
use crate::updates::{assign, limits, LIVE};
use pit_host::{Error, Minute, Published, Store, Version, Why, Window, Windows, WindowsError};
use std::time::{Duration, SystemTime, UNIX_EPOCH};

fn store() -> Store {
    Store::format(limits(4, 8, 2)).unwrap()
}

/// Why a text is refused.
fn refused(text: impl AsRef<[u8]>) -> WindowsError {
    store().set_windows(text).expect_err("a text that is none")
}

// The list.

#[test]
fn a_list_replaces_the_old_one_whole() {
    let mut store = store();
    assert_eq!(store.windows(), Windows::default());
    assert_eq!(store.windows().list(), []);
    for list in ["600,660\n0,1\n10079,0\n", "5,4\n", "", "600,660\n"] {
        store.set_windows(list).unwrap();
        assert_eq!(store.windows().to_string(), list);
        assert_eq!(store.windows().list().len(), list.lines().count());
        store.set_windows("600,660\n1\n").unwrap_err();
        assert_eq!(store.windows().to_string(), list);
    }
    let windows = store.windows();
    assert_eq!(windows.list(), [Window { from: 600, to: 660 }]);
    assert_eq!(windows.places[1..], [Window::default(); 31]);
    assert_eq!(format!("{windows:?}"), "[Window { from: 600, to: 660 }]");
}

/// Bytes will do, and so will what a text is read into.
#[test]
fn a_text_in_any_form() {
    let mut store = store();
    store.set_windows("1,2\n").unwrap();
    let windows = store.windows();
    store.set_windows(b"1,2\n").unwrap();
    store.set_windows(vec![b'1', b',', b'2', b'\n']).unwrap();
    store.set_windows(windows.to_string()).unwrap();
    assert_eq!(store.windows(), windows);
}

/// A due version is held at every minute inside, and published at the first one outside.
#[test]
fn from_is_inside_and_to_is_outside() {
    for (list, inside, outside) in [
        ("600,660\n", 600..660, 660),
        ("10079,1\n", 0..1, 1),
        ("10000,30\n", 10_000..10_080, 30),
        ("0,10079\n", 0..10_079, 10_079),
    ] {
        let mut store = store();
        let (ticket, _) = assign(&mut store, LIVE, None, &[7]).unwrap();
        store.weave(ticket).unwrap();
        store.set_windows(list).unwrap();
        let before = store.clone();
        for minute in inside.map(Minute) {
            assert_eq!(store.publish(LIVE, minute), Ok(Published::Held));
        }
        assert!(store == before, "changed while it was held");
        let published = Ok(Published::Now(Version(1)));
        assert_eq!(store.publish(LIVE, Minute(outside)), published);
    }
}

/// The windows are the site's: what is due on a line that began before or after them waits for their end.
#[test]
fn a_window_holds_what_is_due_on_every_line() {
    let mut store = store();
    let before = store.line_from(LIVE, Version(0));
    store.set_windows("100,200\n").unwrap();
    let after = store.line_from(LIVE, Version(0));
    for line in [before, after] {
        let (ticket, _) = assign(&mut store, line, None, &[7]).unwrap();
        store.weave(ticket).unwrap();
        for minute in [100, 199].map(Minute) {
            assert_eq!(store.publish(line, minute), Ok(Published::Held));
            assert_eq!(store.publish(LIVE, minute), Ok(Published::Held)); // nothing is due there
        }
        assert_eq!(store.recent(line), Ok(Version(0)));
        assert_eq!(store.publish(LIVE, Minute(200)), Ok(Published::Waiting));
        let published = Ok(Published::Now(Version(1)));
        assert_eq!(store.publish(line, Minute(200)), published);
        assert_eq!(store.publish(line, Minute(150)), Ok(Published::Held));
        assert_eq!(store.publish(line, Minute(99)), Ok(Published::Waiting));
    }
}

/// Over windows that no call left, the first place with equal ends ends them, for `held` and for what is listed.
#[test]
fn windows_that_no_call_left() {
    let (state, mut windows, areas) = store().into_parts();
    windows.places[0] = Window {
        from: 5,
        to: 65_535,
    };
    windows.places[1] = Window { from: 3, to: 4 };
    windows.places[2] = Window { from: 7, to: 7 };
    windows.places[3] = Window { from: 1, to: 2 };
    assert_eq!(windows.list(), &windows.places[..2]);
    let mut store = Store::resume(state, windows, areas);
    for held in [3, 5, 10_079] {
        assert_eq!(store.publish(LIVE, Minute(held)), Ok(Published::Held));
    }
    assert_eq!(store.publish(LIVE, Minute(1)), Ok(Published::Waiting));
    assert!(store.set_windows(windows.to_string()).is_err());
}

// What is said of a wrong text.

/// A text whose third line is the wrong one, and one that has only that.
fn with_a_wrong_line(line: &str, why: Why, words: &str) {
    for (text, number) in [
        (format!("600,660\n10079,0\n{line}\n0,0\n"), 3),
        (format!("{line}\n"), 1),
        (format!("{}{line}\n", "1,2\n".repeat(40)), 41),
    ] {
        let refused = refused(text);
        let wrong = refused.wrong().unwrap();
        assert_eq!((wrong.number, wrong.why), (number, why), "{line:?}");
        assert_eq!(wrong.text, line);
        let said = format!("no windows set: line {number}, {line:?}: {words}");
        assert_eq!(refused.to_string(), said);
        assert_eq!(refused.error(), Error::WrongWindow);
    }
}

#[test]
fn every_fault_is_told_with_its_line() {
    let two = "it is not two numbers with one comma between them";
    let digits = "a number is written in digits alone, with no sign or space";
    let zero = "a number does not begin with a 0, unless it is 0";
    let range = "a week's minutes are 0 to 10,079";
    let past = "18446744073709551616,1";
    for (lines, why, words) in [
        (&[""][..], Why::Empty, "it is empty"),
        (
            &["1,2\r", "\r"],
            Why::CarriageReturn,
            "a carriage return stands before its line feed",
        ),
        (
            &[
                "1", ",", "1,", ",1", "1,2,", "1,2,3", ",,", "1;2", "1-2", "#",
            ],
            Why::NotTwoNumbers,
            two,
        ),
        (
            &[
                "+1,2", "1,-2", " 1,2", "1, 2", "1,2 ", "1,2\t", "x,2", "1,2h", "1,0x5", "１,2",
            ],
            Why::NotDigits,
            digits,
        ),
        (&["01,2", "1,00", "00,0", "1,02000"], Why::LeadingZero, zero),
        (
            &["10080,1", "1,10080", "99999,0", past],
            Why::OutOfRange,
            range,
        ),
        (
            &["0,0", "600,600", "10079,10079"],
            Why::EqualEnds,
            "from and to are equal",
        ),
    ] {
        lines
            .iter()
            .for_each(|line| with_a_wrong_line(line, why, words));
    }
}

/// Only of the last line; what else is wrong with it is said first.
#[test]
fn a_last_line_without_its_line_feed_is_told() {
    let why = |text| refused(text).wrong().map(|wrong| (wrong.number, wrong.why));
    assert_eq!(why("1,2"), Some((1, Why::NoLineFeed)));
    assert_eq!(why("1,2\n3,4"), Some((2, Why::NoLineFeed)));
    assert_eq!(why("1,2\n3,3"), Some((2, Why::EqualEnds)));
    assert_eq!(why("1,1\n3,4"), Some((1, Why::EqualEnds)));
    assert_eq!(why("\n"), Some((1, Why::Empty)));
    assert_eq!(
        refused("1,2\n3,4").to_string(),
        "no windows set: line 2, \"3,4\": the last line does not end in a line feed"
    );
}

/// A long line is shown by its beginning, and bytes that are no text are replaced.
#[test]
fn a_wrong_line_can_be_shown() {
    let shown = |text: &[u8]| refused(text).wrong().unwrap().text.clone();
    let long = "7".repeat(40);
    assert_eq!(shown(long.as_bytes()), long);
    assert_eq!(shown(format!("{long}7\n").as_bytes()), long.clone() + "…");
    assert_eq!(shown("7".repeat(1 << 20).as_bytes()), long + "…");
    assert_eq!(shown(b"1,\xff2\n"), "1,\u{fffd}2");
    assert_eq!(shown(&[0xff; 5_000]), "\u{fffd}".repeat(40) + "…");
    let wide = "𝟕".repeat(41); // four bytes each
    assert_eq!(shown(wide.as_bytes()), "𝟕".repeat(40) + "…");
    assert_eq!(shown("𝟕".repeat(40).as_bytes()), "𝟕".repeat(40));
    let words = refused("1,2\u{7}\n\n").to_string();
    assert!(words.starts_with("no windows set: line 1, \"1,2\\u{7}\": "));
}

/// With more than 32 lines, none of which is wrong, there is no line to tell.
#[test]
fn too_many_windows_are_counted() {
    assert_eq!(store().set_windows("1,2\n".repeat(32)), Ok(()));
    for lines in [33, 34, 5_000] {
        let refused = refused("1,2\n".repeat(lines));
        assert_eq!(refused.error(), Error::TooManyWindows);
        assert_eq!((refused.wrong(), refused.lines()), (None, lines as u64));
        let words = refused.to_string();
        assert!(words.contains(&format!("{lines} lines")), "{words}");
    }
}

/// Of a refusal that the text has no part in, the words are those of any call; and it passes for an `Error`.
#[test]
fn other_refusals_of_set_windows() {
    fn set(store: &mut Store, text: &str) -> Result<(), Error> {
        store.set_windows(text)?;
        Ok(())
    }
    let (mut state, windows, areas) = store().into_parts();
    state.pages += 1;
    let mut other = Store::resume(state, windows, areas);
    let refused = other.set_windows("1,1\n").unwrap_err();
    assert_eq!(
        (refused.error(), refused.wrong()),
        (Error::AreaLength, None)
    );
    assert_eq!(refused.to_string(), Error::AreaLength.to_string());
    assert_eq!(set(&mut other, ""), Err(Error::AreaLength));
    assert_eq!(set(&mut store(), "1,1\n"), Err(Error::WrongWindow));
    assert_eq!(set(&mut store(), "1,2\n"), Ok(()));
}

// Minutes.

/// So many seconds after the beginning of 1970, or before it.
fn at(seconds: i64) -> SystemTime {
    let away = Duration::from_secs(seconds.unsigned_abs());
    if seconds < 0 {
        UNIX_EPOCH - away
    } else {
        UNIX_EPOCH + away
    }
}

const DAY: u64 = 24 * 60;
const SUNDAY: u64 = 6 * DAY;

#[test]
fn minutes_at_known_times() {
    for (seconds, minute) in [
        (0, 3 * DAY),                           // Thursday, 1970-01-01, 00:00
        (4 * 86_400, 0),                        // Monday, 1970-01-05, 00:00
        (4 * 86_400 - 1, SUNDAY + DAY - 1),     // the second before it
        (-3 * 86_400, 0),                       // Monday, 1969-12-29, 00:00
        (-3 * 86_400 - 1, SUNDAY + DAY - 1),    // the second before it
        (-1, 3 * DAY - 1),                      // Wednesday, 1969-12-31, 23:59:59
        (-60, 3 * DAY - 1),                     // and 23:59:00
        (-61, 3 * DAY - 2),                     // and 23:58:59
        (951_782_400, DAY),                     // Tuesday, 2000-02-29, 00:00
        (1_774_828_800, 0),                     // Monday, 2026-03-30, 00:00
        (1_774_828_859, 0),                     // and 00:00:59
        (1_774_828_860, 1),                     // and 00:01:00
        (1_774_828_740, SUNDAY + 23 * 60 + 59), // Sunday, 2026-03-29, 23:59
        (-2_208_988_800, 0),                    // Monday, 1900-01-01, 00:00
        (4_102_444_800, 4 * DAY),               // Friday, 2100-01-01, 00:00
    ] {
        assert_eq!(Minute::of(at(seconds), 0), Minute(minute), "{seconds}");
    }
    let almost = at(4 * 86_400) - Duration::from_nanos(1);
    assert_eq!(Minute::of(almost, 0), Minute(10_079));
    let almost = UNIX_EPOCH - Duration::from_nanos(1);
    assert_eq!(Minute::of(almost, 0), Minute(3 * DAY - 1));
}

#[test]
fn minutes_by_a_clock_that_is_ahead_or_behind() {
    let monday = at(1_774_828_800);
    for (ahead, minute) in [
        (600, 600),
        (-1, 10_079),
        (-300, SUNDAY + 19 * 60),
        (10_079, 10_079),
        (10_080, 0),
        (-10_080, 0),
        (-10_081, 10_079),
        (i32::MAX, i32::MAX as u64 % 10_080),
        (i32::MIN, 10_080 - (1 << 31) % 10_080),
    ] {
        assert_eq!(Minute::of(monday, ahead), Minute(minute), "{ahead}");
    }
    let sunday = at(1_774_828_740);
    assert_eq!(Minute::of(sunday, 1), Minute(0));
    assert_eq!(Minute::of(sunday, 345), Minute(344)); // in Kathmandu
    assert_eq!(Minute::of(at(-3 * 86_400 - 60), 1), Minute(0));
}

/// Every time that the system has, by every clock, has a minute of the week.
#[test]
fn every_time_has_a_minute() {
    let farthest = [u64::MAX, i64::MAX as u64, 1 << 63, (1 << 63) - 1];
    let after = farthest.map(|away| UNIX_EPOCH.checked_add(Duration::new(away, 999_999_999)));
    let before = farthest.map(|away| UNIX_EPOCH.checked_sub(Duration::new(away, 0)));
    let times = after.into_iter().chain(before).flatten();
    let times: Vec<SystemTime> = times.chain([SystemTime::now()]).collect();
    assert!(times.len() > 2);
    for time in times {
        for ahead in [i32::MIN, -1, 0, 1, i32::MAX] {
            let minute = Minute::of(time, ahead);
            assert!(minute < Minute(10_080), "{time:?}: {minute}");
            assert_eq!(store().publish(LIVE, minute), Ok(Published::Waiting));
        }
    }
}

/// 23 stands before 24; the windows that there were stay.
#[test]
fn rows_23_and_24_of_windows() {
    let mut store = at_all_stages();
    store.windows_are("600,660\n");
    let set = |s: &mut Store, text: &str| Ok(s.set_windows(text)?);
    let list = "1,2\n".repeat(32);
    for wrong in [
        "", "1", "1,", ",1", "1,2,3", "1,1", "0,10080", "01,2", "1 ,2",
    ] {
        refusals::refused(&mut store, 23, |s| set(s, &format!("{wrong}\n")));
        refusals::refused(&mut store, 23, |s| set(s, &format!("{list}{wrong}\n")));
    }
    refusals::refused(&mut store, 23, |s| set(s, "1,2"));
    refusals::refused(&mut store, 23, |s| set(s, &format!("{list}1,2")));
    refusals::refused(&mut store, 24, |s| set(s, &format!("{list}1,2\n")));
    refusals::refused(&mut store, 24, |s| set(s, &list.repeat(100)));
    assert_eq!(set(&mut store, &list), Ok(()));
    assert_eq!(store.windows().to_string(), list);
}
