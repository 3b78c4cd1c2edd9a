//! The calls over owned and lent areas: the same answers, states and areas, also across a handing over of the parts.

use crate::random::{first_seed, Random};
use crate::support::call::{make_one, Begin};
use crate::support::draw::{draw, Shown, SINGLE};
use crate::updates::{assign, fills, limits, of_three_versions, put_all, update, ANY_TIME, LIVE};
use pit_host::{
    Areas, Assigned, ByteOffset, Error, Line, LineVersion, Minute, Node, PageIndex, Parts,
    PartsMut, Published, Record, State, Storage, Store, Ticket, Version,
};

#[test]
fn owned_and_lent_stores_do_the_same() {
    let seed = first_seed("owned_and_lent_stores_do_the_same");
    let (mut published, mut random) = ([0; 3], Random::new(seed));
    for _ in 0..100 {
        let mut owned = Store::format(limits(24, 60, 10)).unwrap();
        // what stands in lent areas before FORMAT makes no difference
        let mut record = Record::default();
        record.n = 9;
        let (mut pages, mut nodes, mut register) = ([7; 16 * 24], [8; 120], [record; 10]);
        let areas = PartsMut {
            pages: &mut pages,
            nodes: &mut nodes,
            register: &mut register,
        };
        let mut lent = Store::format_in(limits(24, 60, 10), areas).unwrap();
        for _ in 0..600 {
            let call = draw(&mut random, &Shown::of(&owned), &SINGLE);
            let answer = make_one(&mut owned, &call);
            assert_eq!(answer, make_one(&mut lent, &call), "{call:?}");
            assert_eq!(owned.state(), lent.state());
            assert_eq!(owned.windows(), lent.windows());
        }
        assert!(owned.areas().parts() == lent.areas().parts());
        for (published, line) in published.iter_mut().zip((0..).map(Line)) {
            let line = owned.state().line(line);
            *published += line.published - line.start;
        }
    }
    let [live, first, second] = published;
    println!("{published:?} versions published on the first lines");
    assert!(live > 60 && first > 20 && second > 10, "{published:?}");
}

/// Each line has its own bits: what is packed comes back, and nothing else changes.
#[test]
fn lines_are_packed_beside_each_other() {
    let (mut state, mut random) = (State::default(), Random::new(20_260_402));
    let mut lines = [state.line(LIVE); 16];
    for _ in 0..500 {
        let at = random.below(16) as usize;
        let line = &mut lines[at];
        line.source = random.below(16);
        (line.start, line.assigned) = (random.below(65_536), random.below(65_536));
        (line.published, line.blob) = (random.below(65_536), random.below(65_536));
        state.set_line(Line(at as u64), *line);
        for (at, line) in (0..).zip(lines) {
            assert_eq!(state.line(Line(at)), line, "line {at}");
        }
    }
    // there are no others, and nothing is kept of a bit too many
    let (kept, mut wide) = (state, lines[3]);
    for line in [16, 1 << 32, u64::MAX].map(Line) {
        state.set_line(line, lines[0]);
        assert_eq!(
            (state, state.line(line)),
            (kept, State::default().line(LIVE))
        );
    }
    wide.source += 16;
    wide.blob += 1 << 16;
    wide.start += 1 << 63;
    state.set_line(Line(3), wide);
    assert_eq!(state, kept);
    // the last bits are line 15's
    assert_eq!(state.sources >> 60, lines[15].source);
    assert_eq!(state.lines[15] >> 48, lines[15].blob);
}

#[test]
fn a_store_goes_on_in_the_parts_it_gave() {
    let mut store = of_three_versions();
    let (ticket, assigned) = assign(&mut store, LIVE, Some(0), &[8, 9]).unwrap();
    let mut other = store.clone();
    store.windows_are("600,660\n");
    for _ in 0..assigned.nodes {
        let (state, windows, areas) = store.into_parts();
        store = Store::resume(state, windows, areas);
        assert_eq!(store.weave(ticket), other.weave(ticket));
    }
    assert_eq!(store.publish(LIVE, Minute(600)), Ok(Published::Held));
    assert_eq!(
        store.publish(LIVE, ANY_TIME),
        Ok(Published::Now(Version(4)))
    );
    assert_eq!(fills(&store, LIVE, Version(4)), Ok(vec![8, 9, 6, 4, 7]));
}

#[test]
fn areas_of_the_hosts_own_kind() {
    /// Areas in vectors, such as a host may have.
    struct Vectors(Vec<u8>, Vec<u32>, Vec<Record>);
    impl Storage for Vectors {
        fn parts(&self) -> Parts<'_> {
            Parts {
                pages: &self.0,
                nodes: &self.1,
                register: &self.2,
            }
        }
        fn parts_mut(&mut self) -> PartsMut<'_> {
            PartsMut {
                pages: &mut self.0,
                nodes: &mut self.1,
                register: &mut self.2,
            }
        }
    }
    let vectors = Vectors(vec![1; 64], vec![1; 16], vec![Record::default(); 2]);
    let mut store = Store::format_in(limits(4, 8, 2), vectors).unwrap();
    assert_eq!(update(&mut store, LIVE, None, &[5, 6]), Ok(Version(1)));
    assert_eq!(fills(&store, LIVE, Version(1)), Ok(vec![5, 6]));
}

#[test]
fn a_published_version_never_changes() {
    let mut store = of_three_versions();
    let before: Vec<_> = (0..=3)
        .map(|v| fills(&store, LIVE, Version(v)).unwrap())
        .collect();
    assert_eq!(
        before,
        [&[][..], &[1, 2, 3, 4], &[1, 5, 6, 4], &[1, 5, 6, 4, 7]]
    );
    for fill in 20..24 {
        update(&mut store, LIVE, Some(u64::from(fill) - 20), &[fill]).unwrap();
        let after: Vec<_> = (0..=3)
            .map(|v| fills(&store, LIVE, Version(v)).unwrap())
            .collect();
        assert_eq!(before, after);
    }
}

#[test]
fn a_view_is_a_part_of_the_page_area() {
    let store = of_three_versions();
    let view = store.view(LIVE, Version(3), PageIndex(2)).unwrap();
    let area = store.areas().pages().as_ptr_range();
    assert!(area.contains(&view.as_ptr()) && view.len() == 16);
    assert_eq!(view, [6; 16]);
}

#[test]
fn stamps_say_which_pages_to_fetch_again() {
    let store = of_three_versions();
    let stamps = |v| [0, 1, 2, 3].map(|page| store.stamp(LIVE, Version(v), PageIndex(page)));
    assert_eq!(stamps(1), [1, 1, 1, 1].map(|v| Ok(Version(v))));
    assert_eq!(stamps(3), [1, 2, 2, 1].map(|v| Ok(Version(v))));
}

/// The step program's example, call by call: two appends, the second ticket's first.
#[test]
fn the_example() {
    let node = |version, first, span, left, right, rest| {
        let (version, first) = (LineVersion(version), PageIndex(first));
        Ok(((version, first, span), (left, right, rest)))
    };
    let numbers = |woven: Result<Node, Error>| {
        woven.map(|n| ((n.version, n.first, n.span), (n.left, n.right, n.rest)))
    };
    let assigned = |assigned: Result<Assigned, Error>| assigned.map(|a| (a.version, a.nodes));
    let mut store = Store::format(limits(4, 8, 2)).unwrap();
    let (one, two) = (
        put_all(&mut store, &[0x11]).unwrap(),
        put_all(&mut store, &[0x22]).unwrap(),
    );
    assert_eq!((one, two), (Ticket(1), Ticket(2)));
    assert_eq!(assigned(store.append(LIVE, two)), Ok((Version(1), 1)));
    assert_eq!(assigned(store.append(LIVE, one)), Ok((Version(2), 2)));
    assert_eq!(numbers(store.weave(one)), node(2, 0, 2, 1, 2, 1));
    assert_eq!(store.publish(LIVE, ANY_TIME), Ok(Published::Waiting));
    assert_eq!(numbers(store.weave(two)), node(1, 0, 1, 1, 0, 0));
    assert_eq!(
        store.publish(LIVE, ANY_TIME),
        Ok(Published::Now(Version(1)))
    );
    assert_eq!(
        store.read(LIVE, Version(2), ByteOffset(0), &mut []),
        Err(Error::NotPublished)
    );
    assert_eq!(numbers(store.weave(one)), node(2, 1, 1, 0, 0, 0));
    assert_eq!(
        store.publish(LIVE, ANY_TIME),
        Ok(Published::Now(Version(2)))
    );
    let mut bytes = [0; 4];
    assert_eq!(
        store.read(LIVE, Version(2), ByteOffset(14), &mut bytes),
        Ok(())
    );
    assert_eq!(bytes, [0x22, 0x22, 0x11, 0x11]);
    assert_eq!(store.stamp(LIVE, Version(2), PageIndex(0)), Ok(Version(1)));
    assert_eq!(store.begin(1), Err(Error::RegisterFull));
}

#[test]
fn versions_are_published_in_their_order() {
    let mut store = Store::format(limits(8, 16, 4)).unwrap();
    let (first, one) = assign(&mut store, LIVE, None, &[1]).unwrap();
    let (second, two) = assign(&mut store, LIVE, None, &[2]).unwrap();
    for _ in 0..two.nodes {
        store.weave(second).unwrap();
    }
    assert_eq!(store.publish(LIVE, ANY_TIME), Ok(Published::Waiting));
    let node = store.weave(first).unwrap();
    assert_eq!(
        (node.version, node.first, node.span, node.rest),
        (LineVersion::new(LIVE, one.version), PageIndex(0), 1, 0)
    );
    assert_eq!(
        store.publish(LIVE, ANY_TIME),
        Ok(Published::Now(Version(1)))
    );
    assert_eq!(
        store.publish(LIVE, ANY_TIME),
        Ok(Published::Now(Version(2)))
    );
    assert_eq!(store.publish(LIVE, ANY_TIME), Ok(Published::Waiting));
}

#[test]
fn areas_have_the_lengths_of_the_limits() {
    let areas = Areas::new(&limits(3, 5, 7)).unwrap();
    let parts = areas.parts();
    assert_eq!(
        (parts.pages.len(), parts.nodes.len(), parts.register.len()),
        (48, 10, 7)
    );
    assert_eq!(
        format!("{areas:?}"),
        "Areas { pages: 48, nodes: 10, register: 7 }"
    );
    let store = Store::format(limits(3, 5, 7)).unwrap();
    assert_eq!(store.limits(), limits(3, 5, 7));
    assert!(store
        .areas()
        .nodes()
        .iter()
        .all(|number| *number == u32::MAX));
}

#[test]
fn pages_are_put_in_any_order() {
    let mut store = Store::format(limits(4, 8, 2)).unwrap();
    let ticket = store.begin(3).unwrap();
    for i in [2, 0, 1] {
        store.put(ticket, i, &[i as u8; 16]).unwrap();
    }
    let assigned = store.append(LIVE, ticket).unwrap();
    for _ in 0..assigned.nodes {
        store.weave(ticket).unwrap();
    }
    let published = store.publish(LIVE, ANY_TIME).unwrap();
    assert!(published.version().is_some());
    assert_eq!(fills(&store, LIVE, Version(1)), Ok(vec![0, 1, 2]));
    assert_eq!(put_all(&mut store, &[9, 9]), Err(Error::PagesFull));
}
