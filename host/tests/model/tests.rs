//! The model by itself: document 01's example and proved cases, rows that the program never meets, lines and windows.

use super::text::{lines_of, Program};
use super::windows::{Window, WEEK};
use super::Published::{Held, Now, Waiting};
use super::{root_span, weaving_order, Node, Refused, Store};
use std::collections::HashMap;

const EXAMPLE: &str = "\
FORMAT,16,4,8,2
BEGIN,1
BEGIN,1
PUT,2,0,22222222222222222222222222222222
PUT,1,0,11111111111111111111111111111111
APPEND,0,2
APPEND,0,1
WEAVE,1
PUBLISH,0,0
WEAVE,2
PUBLISH,0,0
READ,0,2,0,0
WEAVE,1
PUBLISH,0,0
READ,0,2,14,4
STAMP,0,2,0
BEGIN,1
";

const EXAMPLE_ANSWERS: &str = "\
ok
ticket,1
ticket,2
put
put
version,1,1
version,2,2
node,2,0,2,1,2,1
waiting
node,1,0,1,1,0,0
published,1
refused,16
node,2,1,1,0,0,0
published,2
bytes,22221111
stamp,1
refused,5
";

/// Makes and puts an update of `n` pages, each full of one byte, and assigns it on a line; gives its ticket.
fn update(store: &mut Store, line: u64, n: u64, f: Option<u64>, byte: u8) -> u64 {
    let ticket = store.begin(n).expect("there is room");
    let bytes = vec![byte; store.page_size as usize];
    for i in 0..n {
        assert_eq!(store.put(ticket, i, &bytes), Ok(()));
    }
    assert!(store.assign(line, ticket, f).is_ok());
    ticket
}

/// Weaves all of a ticket's nodes.
fn weave_all(store: &mut Store, ticket: u64) -> Vec<Node> {
    let mut nodes = vec![];
    while nodes.last().map_or(true, |node: &Node| node.left > 0) {
        nodes.push(store.weave(ticket).expect("a node is left"));
    }
    nodes
}

/// The store of figure 1: pages 0-3, then 1-2, then an append of one.
fn figure_1() -> (Store, Vec<Node>) {
    let mut store = Store::format(16, 16, 64, 4).expect("allowed");
    let first = update(&mut store, 0, 4, None, 0x11);
    let second = update(&mut store, 0, 2, Some(1), 0x22);
    let third = update(&mut store, 0, 1, None, 0x33);
    let nodes = [third, first, second].map(|ticket| weave_all(&mut store, ticket));
    (store, nodes.into_iter().flatten().collect())
}

#[test]
fn model_gives_the_example() {
    let mut program = Program::default();
    for (line, answer) in lines_of(EXAMPLE.as_bytes())
        .iter()
        .zip(EXAMPLE_ANSWERS.lines())
    {
        assert_eq!(program.answer(line), answer);
    }
}

#[test]
fn model_gives_the_children_of_figure_1() {
    let (_, nodes) = figure_1();
    let children = |version, first, span| {
        let name = |n: &&Node| (n.version, n.first, n.span) == (version, first, span);
        nodes.iter().find(name).map(|node| node.numbers)
    };
    assert_eq!(children(3, 0, 8), Some((2, 3)));
    assert_eq!(children(3, 4, 4), Some((3, 0)));
    assert_eq!(children(2, 0, 2), Some((1, 2)));
    assert_eq!(children(2, 2, 2), Some((2, 1)));
}

#[test]
fn model_gives_the_proved_node_counts() {
    let cases = [
        (0, 4, 4, 7),
        (1, 2, 4, 5),
        (4, 1, 5, 4),
        (0, 1, 1, 1),
        (1, 1, 2, 2),
        (31, 2, 64, 13),
        (0, 64, 64, 127),
        (4095, 1, 4096, 13),
    ];
    for (f, n, size, count) in cases {
        let names = weaving_order(0, root_span(size), f, n);
        assert_eq!(names.len(), count, "({f}, {n}, {size})");
    }
}

#[test]
fn model_counts_nodes_as_the_tree_rule_sums() {
    for size in 1..=40u64 {
        for f in 0..size {
            for n in 1..=size - f {
                let spans = (0..=root_span(size).trailing_zeros()).map(|height| 1 << height);
                let sum: u64 = spans.map(|q| (f + n - 1) / q - f / q + 1).sum();
                let names = weaving_order(0, root_span(size), f, n);
                assert_eq!(names.len() as u64, sum, "({f}, {n}, {size})");
            }
        }
    }
}

#[test]
fn model_weaves_root_first_and_left_before_right() {
    let names = weaving_order(0, 8, 2, 3);
    assert_eq!(
        names,
        [
            (0, 8),
            (0, 4),
            (2, 2),
            (2, 1),
            (3, 1),
            (4, 4),
            (4, 2),
            (4, 1)
        ]
    );
}

#[test]
fn model_tree_leads_to_the_bytes_and_stamps() {
    let (mut store, nodes) = figure_1();
    while store.publish(0, 0) != Ok(Waiting) {}
    let place = |node: &Node| ((node.version, node.first, node.span), node.numbers);
    let tree: HashMap<_, _> = nodes.iter().map(place).collect();
    let put = [0x11, 0x11, 0x11, 0x11, 0x22, 0x22, 0x33];
    for v in 1..=3 {
        for page in 0..store.size_in_pages(0, v) {
            let (mut version, mut first) = (v, 0);
            let mut span = root_span(store.size_in_pages(0, v));
            while span > 1 {
                let (left, right) = tree[&(version, first, span)];
                span /= 2;
                version = if page < first + span { left } else { right };
                first = page / span * span;
            }
            let (number, _) = tree[&(version, first, 1)];
            assert_eq!(store.stamp(0, v, page), Ok(version));
            let mut buffer = [0; 20];
            assert_eq!(store.read(0, v, 16 * page, 16, &mut buffer), Ok(()));
            assert_eq!(buffer[..16], [put[number as usize]; 16]);
            assert_eq!(buffer[16..], [0; 4], "the rest of the buffer stays");
        }
    }
}

/// The stamps of a page, version by version, as the request says them: on a branch too, and each against the bytes read.
#[test]
fn model_stamps_by_the_bytes() {
    let mut store = Store::format(16, 64, 256, 32).expect("allowed");
    let mut publish = |line, f, n, byte| {
        let ticket = update(&mut store, line, n, f, byte);
        weave_all(&mut store, ticket);
        assert!(matches!(store.publish(line, 0), Ok(Now(_))));
        if store.lines.len() == 1 && store.recent(0) == Ok(4) {
            assert_eq!(store.branch(0, 3), Ok(1));
        }
    };
    for byte in [1, 1, 2, 2] {
        publish(0, Some(0), 2, byte);
    }
    publish(0, Some(1), 2, 2); // page 2 is new
    publish(0, Some(0), 2, 1); // changed back
    publish(1, Some(0), 2, 2); // as version 3, which it shares
    publish(1, Some(1), 1, 7);
    let stamps = |line, v| {
        let pages = 0..store.size_in_pages(line, v);
        let stamps = pages.map(|page| store.stamp(line, v, page));
        stamps.collect::<Result<Vec<_>, _>>()
    };
    let due: [(u64, u64, &[u64]); 10] = [
        (0, 1, &[1, 1]),
        (0, 2, &[1, 1]),
        (0, 3, &[3, 3]),
        (0, 4, &[3, 3]),
        (0, 5, &[3, 3, 5]),
        (0, 6, &[6, 6, 5]),
        (1, 2, &[1, 1]),
        (1, 3, &[3, 3]),
        (1, 4, &[3, 3]),
        (1, 5, &[3, 5]),
    ];
    for (line, v, due) in due {
        assert_eq!(stamps(line, v), Ok(due.to_vec()), "{line}, {v}");
        for (page, stamp) in (0..).zip(due) {
            let bytes = |w| {
                let mut bytes = [0; 16];
                let read = store.read(line, w, 16 * page, 16, &mut bytes);
                read.map(|()| bytes)
            };
            assert!((*stamp..=v).all(|w| bytes(w) == bytes(v)));
            assert_ne!(bytes(stamp - 1), bytes(v), "no lower one");
        }
    }
    assert_eq!(store.stamp(0, 4, 2), Err(Refused(17)));
    assert_eq!(store.covering(0, 4, 0), 4, "which is another matter");
}

#[test]
fn model_refuses_a_blob_above_4096_pages() {
    let mut store = Store::format(16, 65_535, 131_072, 4_096).expect("allowed");
    for _ in 0..64 {
        update(&mut store, 0, 64, None, 0);
    }
    let ticket = store.begin(1).expect("there is room");
    assert_eq!(store.put(ticket, 0, &[0; 16]), Ok(()));
    assert_eq!(store.assign(0, ticket, Some(4_097)), Err(Refused(13)));
    assert_eq!(store.assign(0, ticket, Some(4_096)), Err(Refused(14)));
    assert_eq!(store.assign(0, ticket, None), Err(Refused(14)));
    assert_eq!(store.assign(0, ticket, Some(4_095)), Ok((65, 13)));
}

#[test]
fn model_refuses_a_short_buffer() {
    let (mut store, _) = figure_1();
    assert_eq!(store.publish(0, 0), Ok(Now(1)));
    let mut buffer = [7; 3];
    assert_eq!(store.read(0, 2, 0, 4, &mut buffer), Err(Refused(16)));
    assert_eq!(store.read(0, 1, 61, 4, &mut buffer), Err(Refused(17)));
    assert_eq!(store.read(0, 1, 60, 4, &mut buffer), Err(Refused(18)));
    assert_eq!(buffer, [7; 3]);
    assert_eq!(store.read(0, 1, 61, 3, &mut buffer), Ok(()));
    assert_eq!(buffer, [0x11; 3]);
}

/// Two lines from version 1: both name it by line 0, each its own by itself, and neither reads the other's.
#[test]
fn model_shows_shared_updates_followed_by_a_lines_own() {
    let mut store = Store::format(16, 16, 64, 8).expect("allowed");
    let first = update(&mut store, 0, 2, None, 0x11);
    weave_all(&mut store, first);
    assert_eq!(store.publish(0, 0), Ok(Now(1)));
    assert_eq!(store.branch(0, 1), Ok(1));
    let live = update(&mut store, 0, 1, Some(0), 0x22);
    let plan = update(&mut store, 1, 1, Some(1), 0x33);
    let numbers = |nodes: Vec<Node>| (nodes[0].version, nodes[0].numbers);
    assert_eq!(numbers(weave_all(&mut store, plan)), (65_538, (1, 65_538)));
    assert_eq!(store.publish(1, 0), Ok(Now(2)));
    assert_eq!(
        store.publish(0, 0),
        Ok(Waiting),
        "one line waits for no other"
    );
    assert_eq!(numbers(weave_all(&mut store, live)), (2, (2, 1)));
    assert_eq!(store.publish(0, 0), Ok(Now(2)));
    let pages = |line, v| {
        let mut bytes = [0; 32];
        assert_eq!(store.read(line, v, 0, 32, &mut bytes), Ok(()));
        (bytes[0], bytes[16])
    };
    assert_eq!((pages(0, 1), pages(1, 1)), ((0x11, 0x11), (0x11, 0x11)));
    assert_eq!((pages(0, 2), pages(1, 2)), ((0x22, 0x11), (0x11, 0x33)));
}

#[test]
fn model_refuses_by_the_rows_of_lines() {
    let mut store = Store::format(16, 16, 64, 8).expect("allowed");
    let open = store.begin(1).expect("there is room");
    let done = update(&mut store, 0, 1, None, 0);
    assert_eq!(store.assign(1, 9, None), Err(Refused(7)));
    assert_eq!(store.assign(1, done, None), Err(Refused(8)));
    assert_eq!(store.assign(1, open, Some(9)), Err(Refused(20)));
    assert_eq!(store.assign(0, open, Some(9)), Err(Refused(12)));
    assert_eq!(store.publish(1, WEEK), Err(Refused(20)));
    assert_eq!(store.recent(u64::MAX), Err(Refused(20)));
    assert_eq!(store.stamp(1, 9, 9), Err(Refused(20)));
    assert_eq!(store.branch(1, 9), Err(Refused(20)));
    assert_eq!(
        store.branch(0, 1),
        Err(Refused(16)),
        "assigned, not published"
    );
    for line in 1..16 {
        assert_eq!(store.branch(line - 1, 0), Ok(line));
    }
    assert_eq!(store.branch(16, 9), Err(Refused(20)));
    assert_eq!(store.branch(15, 1), Err(Refused(16)));
    assert_eq!(store.branch(15, 0), Err(Refused(21)));
    assert_eq!(store.put(open, 0, &[0; 16]), Ok(()));
    assert_eq!(
        store.assign(15, open, Some(1)),
        Err(Refused(13)),
        "15 is empty"
    );
    assert_eq!(store.assign(15, open, None), Ok((1, 1)));
}

#[test]
fn model_keeps_the_limits_of_format() {
    let form = |s, pages, nodes, updates| Store::format(s, pages, nodes, updates).err();
    assert!(form(16, 65_535, 131_072, 4_096).is_none());
    assert!(form(4_096, 1, 1, 1).is_none());
    for s in [0, 1, 8, 15, 17, 48, 4_095, 8_192, u64::MAX] {
        assert_eq!(form(s, 0, 0, 0), Some(Refused(1)));
    }
    for (pages, nodes, updates) in [(65_536, 1, 1), (1, 131_073, 1), (1, 1, 4_097)] {
        assert_eq!(form(16, pages, nodes, updates), Some(Refused(2)));
    }
}

#[test]
fn model_splits_an_input_into_lines() {
    let lines = |input: &str| lines_of(input.as_bytes()).len();
    let counts = ["", "\n", "A", "A\n", "A\nB", "A\n\n", "\n\n"].map(lines);
    assert_eq!(counts, [0, 1, 1, 1, 2, 2, 2]);
}

// Windows.

/// Walks the week's clock from `from` until `to`, a minute a step: a window has the minutes met, and no other.
#[test]
fn model_has_the_minutes_of_a_window() {
    let ends = [0, 1, 2, 5_000, 10_000, WEEK - 2, WEEK - 1];
    for (from, to) in ends.iter().flat_map(|from| ends.map(|to| (*from, to))) {
        let mut met = [false; WEEK as usize];
        let mut minute = from;
        while minute != to {
            met[minute as usize] = true;
            minute = (minute + 1) % WEEK;
        }
        let window = Window { from, to };
        for minute in 0..WEEK {
            assert_eq!(
                window.has(minute),
                met[minute as usize],
                "{window:?}, {minute}"
            );
        }
    }
}

fn empty() -> Store {
    Store::format(16, 4, 8, 2).expect("allowed")
}

/// A list of so many windows, one a minute.
fn list(count: u64) -> String {
    (0..count).map(|k| format!("{k},{}\n", k + 1)).collect()
}

#[test]
fn model_reads_a_list() {
    let window = |from, to| Window { from, to };
    let mut store = empty();
    assert_eq!(store.windows, [], "as after FORMAT");
    assert_eq!(store.set_windows(b"0,1\n10079,0\n"), Ok(()));
    assert_eq!(store.windows, [window(0, 1), window(10_079, 0)]);
    assert_eq!(store.set_windows(b"0,10079\n"), Ok(()), "the old list goes");
    assert_eq!(store.windows, [window(0, 10_079)]);
    assert_eq!(store.set_windows(list(33).as_bytes()), Err(Refused(24)));
    assert_eq!(store.windows, [window(0, 10_079)], "refused, it stays");
    assert_eq!(store.set_windows(list(32).as_bytes()), Ok(()));
    assert_eq!(store.windows.len(), 32);
    assert_eq!(store.set_windows(b""), Ok(()));
    assert_eq!(store.windows, []);
}

#[test]
fn model_refuses_a_list_with_a_wrong_line() {
    let wrong: [&[u8]; 22] = [
        b"\n",
        b"1,2",
        b"1,2\n3,4",
        b"1,2\n\n",
        b"\n1,2\n",
        b",\n",
        b"1\n",
        b"1,\n",
        b",2\n",
        b"1,2,\n",
        b"1,2,3\n",
        b"1,1\n",
        b"1,10080\n",
        b"10080,1\n",
        b"01,2\n",
        b"+1,2\n",
        b"1,-2\n",
        b" 1,2\n",
        b"1,2 \n",
        b"1,2\r\n",
        b"1,65538\n",
        b"1,18446744073709551618\n",
    ];
    for text in wrong {
        let shown = text.escape_ascii();
        assert_eq!(empty().set_windows(text), Err(Refused(23)), "{shown}");
        let past_the_32nd = [list(32).as_bytes(), text].concat();
        let refused = empty().set_windows(&past_the_32nd);
        assert_eq!(refused, Err(Refused(23)), "32 windows, then {shown}");
    }
}

#[test]
fn model_holds_inside_a_window_due_or_not() {
    let mut store = empty();
    assert_eq!(store.set_windows(b"100,200\n10000,50\n"), Ok(()));
    let ticket = update(&mut store, 0, 1, None, 0);
    assert_eq!(store.publish(0, 100), Ok(Held), "nothing is due");
    weave_all(&mut store, ticket);
    for minute in [100, 199, 10_000, 10_079, 0, 49] {
        assert_eq!(store.publish(0, minute), Ok(Held), "{minute}");
    }
    assert_eq!(store.recent(0), Ok(0), "held, it moves nothing");
    assert_eq!(store.publish(1, 100), Err(Refused(20)));
    assert_eq!(store.publish(1, WEEK), Err(Refused(20)));
    assert_eq!(store.publish(0, WEEK), Err(Refused(22)));
    assert_eq!(store.publish(0, u64::MAX), Err(Refused(22)));
    assert_eq!(store.publish(0, 50), Ok(Now(1)));
    for minute in [50, 99, 200, 9_999] {
        assert_eq!(store.publish(0, minute), Ok(Waiting), "{minute}");
    }
}
