//! Every row of the table of refusals, met through the library; and that a refused call changes nothing.

use crate::support::call::{each, make_one, windows_of, Begin, Call};
use crate::updates::{assign, limits, of_three_versions, put_all, update, ANY_TIME, LIVE};
use pit_host::{
    Areas, ByteOffset, Error, Limits, Line, Minute, PageIndex, PartsMut, Published, Record, State,
    Storage, Store, Ticket, Version,
};

/// The call is refused with the number, and the store is as it was.
#[track_caller]
pub fn refused(store: &mut Store, number: u64, call: impl FnOnce(&mut Store) -> Result<(), Error>) {
    let before = store.clone();
    let error = call(store).expect_err("a refusal");
    assert_eq!(error.number(), number, "{error}");
    assert!(*store == before, "changed by a refused call: {error}");
}

/// Every call but FORMAT, with arguments that the store of three versions accepts.
fn calls() -> Vec<Call> {
    let tickets = [Ticket(4), Ticket(5), Ticket(6)];
    each(LIVE, Version(3), tickets, &[9; 16])
}

/// Three versions published; ticket 4 open, ticket 5 put, ticket 6 assigned as version 4.
pub fn at_all_stages() -> Store {
    let mut store = of_three_versions();
    assert_eq!(store.begin(1), Ok(Ticket(4)));
    assert_eq!(put_all(&mut store, &[8]), Ok(Ticket(5)));
    let (ticket, assigned) = assign(&mut store, LIVE, Some(2), &[9, 10]).expect("room");
    assert_eq!((ticket, assigned.version), (Ticket(6), Version(4)));
    store
}

#[test]
fn the_calls_are_accepted_where_nothing_is_wrong() {
    for call in calls() {
        let made = make_one(&mut at_all_stages(), &call);
        assert!(made.is_ok(), "{call:?}");
    }
    assert_eq!(at_all_stages().recent(LIVE), Ok(Version(3)));
}

#[test]
fn numbers_and_words() {
    for (number, &error) in (1..).zip(Error::ALL) {
        assert_eq!(error.number(), number);
        assert_eq!(Error::from_number(number), Some(error));
        assert!(error.to_string().len() > 20, "{error:?}");
    }
    assert_eq!(Error::ALL.len(), 24);
    for number in [0, 25, u64::MAX] {
        assert_eq!(Error::from_number(number), None);
    }
    let words: std::collections::HashSet<_> = Error::ALL.iter().map(Error::to_string).collect();
    assert_eq!(words.len(), 24);
}

#[test]
fn rows_1_and_2_of_limits() {
    for page_size in [0, 1, 8, 15, 17, 24, 4_095, 8_192, 1 << 32, u64::MAX] {
        let refused = Store::format(Limits::new(page_size, 1, 1, 1));
        assert_eq!(refused.unwrap_err(), Error::PageSize, "{page_size}");
    }
    let ends = [
        (0, 1, 1),
        (65_536, 1, 1),
        (1, 0, 1),
        (1, 131_073, 1),
        (1, 1, 0),
        (1, 1, 4_097),
    ];
    for (pages, nodes, updates) in ends.into_iter().chain([(u64::MAX, u64::MAX, u64::MAX)]) {
        let refused = Store::format(limits(pages, nodes, updates));
        assert_eq!(
            refused.unwrap_err(),
            Error::Capacity,
            "{pages}, {nodes}, {updates}"
        );
        assert_eq!(
            Areas::new(&limits(pages, nodes, updates)),
            Err(Error::Capacity)
        );
    }
    assert_eq!((Error::PageSize.number(), Error::Capacity.number()), (1, 2));
}

#[test]
fn row_3_in_format_leaves_the_areas() {
    for (bytes, numbers, records) in [
        (63, 16, 2),
        (65, 16, 2),
        (64, 15, 2),
        (64, 16, 3),
        (0, 0, 0),
    ] {
        let (mut pages, mut nodes) = (vec![5; bytes], vec![6; numbers]);
        let mut record = Record::default();
        record.n = 7;
        let mut register = vec![record; records];
        let kept = (pages.clone(), nodes.clone(), register.clone());
        let areas = PartsMut {
            pages: &mut pages,
            nodes: &mut nodes,
            register: &mut register,
        };
        let refused = Store::format_in(limits(4, 8, 2), areas).unwrap_err();
        assert_eq!((refused, refused.number()), (Error::AreaLength, 3));
        assert!(
            (pages, nodes, register) == kept,
            "changed by a refused FORMAT"
        );
    }
}

#[test]
fn row_3_in_every_call() {
    let wrong: [fn(&mut State); 5] = [
        |s| s.size = 32,
        |s| s.pages += 1,
        |s| s.nodes -= 1,
        |s| s.updates += 1,
        |s| s.pages = u64::MAX,
    ];
    for change in wrong {
        let (mut state, windows, areas) = at_all_stages().into_parts();
        change(&mut state);
        let mut store = Store::resume(state, windows, areas);
        for call in calls() {
            refused(&mut store, 3, |s| make_one(s, &call).map(drop));
        }
        assert_eq!(store.recent(LIVE), Err(Error::AreaLength));
        // 3 comes first, whatever the minute and the text
        let wrong = [Call::Publish(LIVE, Minute(10_080)), windows_of("x")];
        for call in wrong {
            refused(&mut store, 3, |s| make_one(s, &call).map(drop));
        }
    }
}

#[test]
fn rows_4_to_6_of_begin() {
    let mut store = Store::format(limits(66, 8, 3)).unwrap();
    for n in [0, 65, u64::MAX] {
        refused(&mut store, 4, |s| s.begin(n).map(drop));
    }
    store.begin(64).unwrap();
    refused(&mut store, 6, |s| s.begin(3).map(drop));
    store.begin(1).unwrap();
    store.begin(1).unwrap();
    refused(&mut store, 5, |s| s.begin(1).map(drop));
}

#[test]
fn rows_7_and_8_of_tickets() {
    let mut store = at_all_stages();
    for ticket in [0, 7, u64::MAX].map(Ticket) {
        refused(&mut store, 7, |s| s.put(ticket, 0, &[0; 16]));
        refused(&mut store, 7, |s| {
            s.write(LIVE, ticket, PageIndex(0)).map(drop)
        });
        refused(&mut store, 7, |s| s.append(LIVE, ticket).map(drop));
        refused(&mut store, 7, |s| s.weave(ticket).map(drop));
    }
    // ticket 6 has its version; ticket 5 has none yet; ticket 1 has no node left
    refused(&mut store, 8, |s| s.put(Ticket(6), 0, &[0; 16]));
    refused(&mut store, 8, |s| {
        s.write(LIVE, Ticket(6), PageIndex(0)).map(drop)
    });
    refused(&mut store, 8, |s| s.append(LIVE, Ticket(6)).map(drop));
    refused(&mut store, 8, |s| s.weave(Ticket(5)).map(drop));
    refused(&mut store, 8, |s| s.weave(Ticket(1)).map(drop));
}

#[test]
fn rows_9_to_11_of_put() {
    let mut store = Store::format(limits(4, 8, 2)).unwrap();
    let ticket = store.begin(2).unwrap();
    for i in [2, 64, u64::MAX] {
        refused(&mut store, 9, |s| s.put(ticket, i, &[0; 16]));
    }
    store.put(ticket, 1, &[1; 16]).unwrap();
    refused(&mut store, 10, |s| s.put(ticket, 1, &[2; 16]));
    for length in [0, 15, 17, 4_096] {
        refused(&mut store, 11, |s| s.put(ticket, 0, &vec![3; length]));
    }
}

#[test]
fn rows_12_and_13_of_assign() {
    let mut store = at_all_stages();
    refused(&mut store, 12, |s| {
        s.write(LIVE, Ticket(4), PageIndex(0)).map(drop)
    });
    refused(&mut store, 12, |s| s.append(LIVE, Ticket(4)).map(drop));
    for first in [6, u64::MAX] {
        refused(&mut store, 13, |s| {
            s.write(LIVE, Ticket(5), PageIndex(first)).map(drop)
        });
    }
    assert_eq!(
        store
            .write(LIVE, Ticket(5), PageIndex(5))
            .map(|a| a.version),
        Ok(Version(5))
    );
}

#[test]
fn rows_14_and_15_of_assign() {
    let mut store = Store::format(limits(4_200, 10_000, 70)).unwrap();
    for _ in 0..64 {
        assign(&mut store, LIVE, None, &[1; 64]).unwrap();
    }
    let ticket = put_all(&mut store, &[2, 3]).unwrap();
    refused(&mut store, 14, |s| s.append(LIVE, ticket).map(drop));
    refused(&mut store, 14, |s| {
        s.write(LIVE, ticket, PageIndex(4_095)).map(drop)
    });
    assert!(store.write(LIVE, ticket, PageIndex(4_094)).is_ok());

    let mut store = Store::format(limits(4, 2, 2)).unwrap();
    update(&mut store, LIVE, None, &[1]).unwrap();
    let ticket = put_all(&mut store, &[2]).unwrap();
    refused(&mut store, 15, |s| s.append(LIVE, ticket).map(drop));
    assert!(store.write(LIVE, ticket, PageIndex(0)).is_ok());
}

#[test]
fn rows_16_and_17_of_readers() {
    let mut store = at_all_stages();
    for version in [4, 5, u64::MAX].map(Version) {
        refused(&mut store, 16, |s| s.size(LIVE, version).map(drop));
        refused(&mut store, 16, |s| {
            s.stamp(LIVE, version, PageIndex(0)).map(drop)
        });
        refused(&mut store, 16, |s| {
            s.view(LIVE, version, PageIndex(0)).map(drop)
        });
        refused(&mut store, 16, |s| {
            s.read(LIVE, version, ByteOffset(0), &mut [])
        });
    }
    for page in [5, u64::MAX].map(PageIndex) {
        refused(&mut store, 17, |s| {
            s.stamp(LIVE, Version(3), page).map(drop)
        });
        refused(&mut store, 17, |s| s.view(LIVE, Version(3), page).map(drop));
    }
    for (offset, len) in [(0, 81), (80, 1), (81, 0), (1, u64::MAX), (u64::MAX, 1)] {
        refused(&mut store, 17, |s| {
            s.read_front(LIVE, Version(3), ByteOffset(offset), len, &mut [0; 96])
        });
    }
    refused(&mut store, 17, |s| {
        s.view(LIVE, Version(0), PageIndex(0)).map(drop)
    });
    assert_eq!(store.read(LIVE, Version(0), ByteOffset(0), &mut []), Ok(()));
    assert_eq!(
        store.read(LIVE, Version(3), ByteOffset(80), &mut []),
        Ok(())
    );
}

/// 20 stands after 3, 7 and 8, and before every other row.
#[test]
fn row_20_of_lines() {
    let mut store = at_all_stages();
    for line in [1, 15, 16, 65_536, u64::MAX].map(Line) {
        refused(&mut store, 20, |s| {
            s.write(line, Ticket(5), PageIndex(0)).map(drop)
        });
        refused(&mut store, 20, |s| s.append(line, Ticket(5)).map(drop));
        refused(&mut store, 20, |s| s.append(line, Ticket(4)).map(drop)); // 12
        refused(&mut store, 20, |s| {
            s.write(line, Ticket(5), PageIndex(99)).map(drop) // 13
        });
        refused(&mut store, 7, |s| s.append(line, Ticket(7)).map(drop));
        refused(&mut store, 8, |s| s.append(line, Ticket(6)).map(drop));
        refused(&mut store, 20, |s| s.publish(line, ANY_TIME).map(drop));
        refused(&mut store, 20, |s| s.recent(line).map(drop));
        for version in [0, 3, 9].map(Version) {
            let of_a_version = each(line, version, [Ticket(0); 3], &[]).into_iter();
            for call in of_a_version.filter(|call| call.version().is_some()) {
                refused(&mut store, 20, |s| make_one(s, &call).map(drop));
            }
            refused(&mut store, 20, |s| s.size(line, version).map(drop));
            refused(&mut store, 20, |s| {
                s.stamp(line, version, PageIndex(99)).map(drop)
            });
            refused(&mut store, 20, |s| {
                s.view(line, version, PageIndex(0)).map(drop)
            });
            refused(&mut store, 20, |s| {
                s.read_front(line, version, ByteOffset(99), 1, &mut [])
            });
        }
    }
    assert_eq!(store.line_from(LIVE, Version(0)), Line(1));
    assert_eq!(store.recent(Line(1)), Ok(Version(0)));
    refused(&mut store, 20, |s| s.recent(Line(2)).map(drop));
}

/// 13 and an append's place go by the line's own last assigned version, and 16 by what it has published.
#[test]
fn rows_13_and_16_are_read_on_their_line() {
    let mut store = at_all_stages(); // line 0 has 5 pages
    let plan = store.line_from(LIVE, Version(2)); // and this one 4
    let empty = store.line_from(LIVE, Version(0));
    let write = |s: &mut Store, line, first| s.write(line, Ticket(5), PageIndex(first)).map(drop);
    refused(&mut store, 13, |s| write(s, plan, 5));
    refused(&mut store, 13, |s| write(s, empty, 1));
    for line in [plan, empty] {
        refused(&mut store, 16, |s| s.size(line, Version(3)).map(drop));
    }
    assert_eq!(store.clone().append(empty, Ticket(5)).map(drop), Ok(()));
    assert_eq!(write(&mut store, plan, 4), Ok(()));
    refused(&mut store, 8, |s| s.append(LIVE, Ticket(5)).map(drop));
    refused(&mut store, 16, |s| s.size(plan, Version(3)).map(drop));
    while store.weave(Ticket(5)).unwrap().rest > 0 {}
    assert_eq!(
        store.publish(plan, ANY_TIME),
        Ok(Published::Now(Version(3)))
    );
    assert_eq!(store.size(plan, Version(3)), Ok(5 * 16));
    assert_eq!(store.recent(LIVE), Ok(Version(3)));
}

/// 22 stands after 20, and before "held".
#[test]
fn row_22_of_publish() {
    let mut store = at_all_stages();
    store.windows_are("10079,600\n");
    for minute in [10_080, 65_536, 65_536 + 30, 1 << 32, u64::MAX].map(Minute) {
        refused(&mut store, 22, |s| s.publish(LIVE, minute).map(drop));
        refused(&mut store, 20, |s| s.publish(Line(1), minute).map(drop));
    }
    let held = Ok(Published::Held);
    assert_eq!(store.publish(LIVE, Minute(10_079)), held);
    refused(&mut store, 20, |s| {
        s.publish(Line(1), Minute(10_079)).map(drop)
    });
}

#[test]
fn row_18_leaves_the_buffer() {
    let mut store = of_three_versions();
    let mut buffer = [9; 15];
    refused(&mut store, 18, |s| {
        s.read_front(LIVE, Version(3), ByteOffset(0), 16, &mut buffer)
    });
    assert_eq!(buffer, [9; 15]);
    store
        .read_front(LIVE, Version(3), ByteOffset(0), 14, &mut buffer)
        .unwrap();
    assert_eq!(buffer, [1, 1, 1, 1, 1, 1, 1, 1, 1, 1, 1, 1, 1, 1, 9]);
}

/// `read` is READ of as many bytes as the buffer has: it answers and fills as `read_front` of that length does, and no buffer is
/// too short for it.
#[test]
fn read_fills_the_whole_buffer() {
    let store = of_three_versions();
    let mut answers = [0; 25];
    for version in (0..=4).map(Version) {
        for (offset, len) in (0..=82).flat_map(|offset| (0..=40).map(move |len| (offset, len))) {
            let (offset, mut buffer, mut front) = (ByteOffset(offset), vec![9; len], vec![9; len]);
            let read = store.read(LIVE, version, offset, &mut buffer);
            let len = len as u64;
            let answer = store.read_front(LIVE, version, offset, len, &mut front);
            assert_eq!(
                (read, buffer),
                (answer, front),
                "{version}, {offset}, {len}"
            );
            answers[read.map_or_else(|refused| refused.number(), |()| 0) as usize] += 1;
        }
    }
    let met: Vec<usize> = (0..25).filter(|number| answers[*number] > 0).collect();
    assert_eq!(met, [0, 16, 17]);
}

/// The store of all stages, its state and areas changed.
fn changed(change: impl FnOnce(&mut State, PartsMut<'_>)) -> Store {
    let (mut state, windows, mut areas) = at_all_stages().into_parts();
    change(&mut state, areas.parts_mut());
    Store::resume(state, windows, areas)
}

/// In a register that no run left: the low n bits of a ticket's mask decide, whatever stands above them.
#[test]
fn rows_10_and_12_over_stray_bits() {
    let mut store = changed(|_, areas| areas.register[4].put = 3);
    refused(&mut store, 10, |s| s.put(Ticket(5), 0, &[9; 16]));
    assert_eq!(store.append(LIVE, Ticket(5)).map(drop), Ok(()));
    let mut store = changed(|_, areas| areas.register[3].put = 2);
    refused(&mut store, 12, |s| s.append(LIVE, Ticket(4)).map(drop));
    assert_eq!(store.put(Ticket(4), 0, &[9; 16]), Ok(()));
    assert_eq!(store.append(LIVE, Ticket(4)).map(drop), Ok(()));
}

#[test]
fn row_19_of_nodes_not_stored() {
    let mut store = changed(|_, areas| areas.nodes.fill(u32::MAX));
    refused(&mut store, 19, |s| {
        s.stamp(LIVE, Version(3), PageIndex(2)).map(drop)
    });
    refused(&mut store, 19, |s| {
        s.view(LIVE, Version(3), PageIndex(2)).map(drop)
    });
    let mut buffer = [9; 80];
    refused(&mut store, 19, |s| {
        s.read(LIVE, Version(3), ByteOffset(0), &mut buffer)
    });
    assert_eq!(buffer, [9; 80]);
}

#[test]
fn row_19_of_page_numbers_places_and_records_past_their_areas() {
    let mut store = changed(|_, areas| areas.register[3].number = 16);
    refused(&mut store, 19, |s| s.put(Ticket(4), 0, &[9; 16]));
    let mut store = changed(|_, areas| {
        let update = &mut areas.register[3];
        update.top = 64 + u64::from(update.span.trailing_zeros());
    });
    refused(&mut store, 19, |s| s.weave(Ticket(6)).map(drop));
    let mut store = changed(|state, _| state.tickets = u64::MAX);
    refused(&mut store, 19, |s| s.put(Ticket(9), 0, &[9; 16]));
    refused(&mut store, 19, |s| s.append(LIVE, Ticket(9)).map(drop));
    refused(&mut store, 19, |s| s.weave(Ticket(9)).map(drop));
    let mut store = changed(|state, _| {
        let mut live = state.line(LIVE);
        (live.assigned, live.published) = (10, 9);
        state.set_line(LIVE, live);
    });
    refused(&mut store, 19, |s| s.publish(LIVE, ANY_TIME).map(drop));
    refused(&mut store, 22, |s| {
        s.publish(LIVE, Minute(10_080)).map(drop)
    });
    // inside a window no record is looked at
    store.windows_are("0,1\n");
    assert_eq!(store.publish(LIVE, Minute(0)), Ok(Published::Held));
    refused(&mut store, 19, |s| s.publish(LIVE, Minute(1)).map(drop));
    let of_a_version = each(LIVE, Version(9), [Ticket(0); 3], &[]).into_iter();
    for call in of_a_version.filter(|call| call.version().is_some()) {
        refused(&mut store, 19, |s| make_one(s, &call).map(drop));
    }
}
