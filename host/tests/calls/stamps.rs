//! Stamps by content: STAMP answers the lowest version of the line from which on the page has the same bytes, up to the
//! version asked for. By hand where the step program's limits are too small, and over random stores by what trucks rely on.

use crate::random::{first_seed, Random};
use crate::support::call::Begin;
use crate::updates::{limits, update, ANY_TIME, LIVE};
use pit_host::{Error, Limits, Line, PageIndex, Published, Store, Version};

/// An update from BEGIN to PUBLISH of pages with these bytes, from page `at` on.
fn update_of(store: &mut Store, line: Line, at: u64, pages: &[&[u8]]) -> Version {
    let ticket = store.begin(pages.len() as u64).expect("room for all");
    for (i, page) in (0..).zip(pages) {
        store.put(ticket, i, page).expect("each page once");
    }
    let assigned = store.write(line, ticket, PageIndex(at));
    let assigned = assigned.expect("room for all");
    for _ in 0..assigned.nodes {
        store.weave(ticket).expect("a node is left");
    }
    let published = store.publish(line, ANY_TIME);
    assert_eq!(published, Ok(Published::Now(assigned.version)));
    assigned.version
}

/// The stamps of a version's pages.
pub fn stamps(store: &Store, line: Line, v: u64) -> Vec<u64> {
    let pages = store.size(line, Version(v)).expect("published") / store.state().size;
    let stamp = |page| store.stamp(line, Version(v), PageIndex(page));
    let stamps = (0..pages).map(|page| stamp(page).map(|stamp| stamp.0));
    stamps
        .collect::<Result<_, _>>()
        .expect("pages that are there")
}

#[test]
fn resent_changed_and_changed_back() {
    let mut store = Store::format(limits(32, 64, 16)).unwrap();
    for pages in [[1, 5], [1, 5], [2, 5], [2, 6], [1, 6]] {
        update(&mut store, LIVE, Some(0), &pages).unwrap();
    }
    let due = [[1, 1], [1, 1], [3, 1], [3, 4], [5, 4]];
    for (v, due) in (1..).zip(due) {
        assert_eq!(stamps(&store, LIVE, v), due, "version {v}");
    }
    let none = store.stamp(LIVE, Version(5), PageIndex(2));
    assert_eq!(none, Err(Error::OutsideSnapshot));
}

/// Bytes on the same page alone count: a page appended with the bytes of another is new.
#[test]
fn a_page_past_the_end_of_the_version_before() {
    let mut store = Store::format(limits(32, 128, 16)).unwrap();
    for (at, fills) in [(None, 3), (None, 1), (Some(2), 4), (None, 2)] {
        update(&mut store, LIVE, at, &vec![0; fills]).unwrap();
    }
    assert_eq!(stamps(&store, LIVE, 1), [1, 1, 1]);
    assert_eq!(stamps(&store, LIVE, 2), [1, 1, 1, 2]);
    assert_eq!(stamps(&store, LIVE, 3), [1, 1, 1, 2, 3, 3]);
    assert_eq!(stamps(&store, LIVE, 4), [1, 1, 1, 2, 3, 3, 4, 4]);
}

/// Pages of every size: one byte differs, the first, the last, and those at which blocks of any size begin and end. The pages
/// beside it in the area differ all over.
#[test]
fn one_byte_differs_in_pages_of_every_size() {
    for page_size in (4..=12).map(|height| 1usize << height) {
        let ends = (0..=12).map(|height| 1usize << height);
        let ends = ends.flat_map(|end| [end - 1, end, page_size - 1, page_size.wrapping_sub(end)]);
        let mut places: Vec<usize> = ends.filter(|at| *at < page_size).collect();
        places.sort_unstable();
        places.dedup();
        let limits = Limits::worst(page_size as u64, 4, 4 * places.len() as u64 + 4, 3);
        let mut store = Store::format(limits.expect("within the limits")).unwrap();
        let page: Vec<u8> = (0..page_size).map(|i| (i * i / 7) as u8).collect();
        let (one, other) = (vec![0x55; page_size], vec![0xaa; page_size]);
        let mut v = update_of(&mut store, LIVE, 0, &[&one, &page, &other]);
        for at in places {
            let mut changed = page.clone();
            changed[at] ^= 1;
            for (bytes, resent) in [(&changed, false), (&changed, true), (&page, false)] {
                let stamp = if resent { v.0 } else { v.0 + 1 };
                v = update_of(&mut store, LIVE, 1, &[bytes]);
                assert_eq!(
                    stamps(&store, LIVE, v.0),
                    [1, stamp, 1],
                    "{page_size}: {at}"
                );
            }
            let after = v.0;
            v = update_of(&mut store, LIVE, 0, &[&one, &page, &other]);
            assert_eq!(stamps(&store, LIVE, v.0), [1, after, 1]);
        }
    }
}

/// As many updates as a store takes: one page is resent by all, another only now and then, a third is changed by each.
#[test]
fn four_thousand_resent_updates() {
    for page_size in [16, 256] {
        let limits = Limits::worst(page_size, 4, 4_096, 3).expect("within the limits");
        let mut store = Store::format(limits).unwrap();
        for k in 0..4_096u64 {
            let fills = [7, (k / 1_000) as u8, k as u8];
            update(&mut store, LIVE, Some(0), &fills).unwrap();
        }
        for v in [1, 2, 999, 1_000, 1_001, 2_000, 3_999, 4_000, 4_001, 4_096] {
            let due = [1, (v - 1) / 1_000 * 1_000 + 1, v];
            assert_eq!(stamps(&store, LIVE, v), due, "version {v}");
        }
        let before = store.clone();
        let plan = store.line_from(LIVE, Version(4_096));
        assert_eq!(stamps(&store, plan, 4_096), stamps(&before, LIVE, 4_096));
    }
}

/// What trucks rely on, over random stores: of two versions of a line, a page has the stamp of the later one at or below the
/// earlier one just where it is in the earlier one and no version from there to the later one changes its bytes. So a truck
/// that has the page as of the earlier version fetches it again exactly where the stamp is above that version; and where two
/// versions have the same stamp, they have the same bytes.
#[test]
fn a_stamp_is_above_a_version_just_where_the_page_has_changed_since() {
    let first = first_seed("a_stamp_is_above_a_version_just_where_the_page_has_changed_since");
    let (mut kept, mut changed) = (0, 0);
    for seed in (0..60).map(|i| first.wrapping_add(i)) {
        let store = random_store(&mut Random::new(seed));
        for line in (0..store.state().begun).map(Line) {
            let recent = store.recent(line).unwrap().0;
            let view = |v, page| store.view(line, Version(v), PageIndex(page)).ok();
            for later in 1..=recent {
                for (page, stamp) in (0..).zip(stamps(&store, line, later)) {
                    let bytes = view(later, page);
                    let mut same = true;
                    for earlier in (0..=later).rev() {
                        same &= view(earlier, page) == bytes;
                        let of = format!("PIT_SEED={seed}: {line}, {earlier}..{later}, {page}");
                        assert_eq!(stamp <= earlier, same, "{of}");
                        if store.stamp(line, Version(earlier), PageIndex(page))
                            == Ok(Version(stamp))
                        {
                            assert_eq!(view(earlier, page), bytes, "{of}");
                        }
                        kept += u64::from(same);
                        changed += u64::from(!same);
                    }
                }
            }
        }
    }
    println!("{kept} times kept, {changed} times changed");
    assert!(kept > 10_000 && changed > 10_000);
}

/// A store of a few lines, whose pages are filled with one of two bytes.
fn random_store(random: &mut Random) -> Store {
    let mut store = Store::format(limits(128, 1_024, 32)).unwrap();
    for _ in 0..24 {
        let mut line = Line(random.below(store.state().begun));
        let recent = store.recent(line).unwrap();
        if random.one_in(5) {
            let version = Version(random.below(recent.0 + 1));
            line = store.line_from(line, version);
        }
        let size = store.state().line(line).blob;
        let fills: Vec<u8> = (0..1 + random.below(3))
            .map(|_| random.below(2) as u8)
            .collect();
        let at = random.below(size.min(4) + 1);
        update(&mut store, line, Some(at), &fills).unwrap();
    }
    store
}
