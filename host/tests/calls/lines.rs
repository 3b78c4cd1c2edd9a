//! Lines that begin from a version of another: what they share with it, what they do by themselves, and where BRANCH is refused.

use crate::refusals::{at_all_stages, refused};
use crate::stamps::stamps;
use crate::support::call::Begin;
use crate::updates::{assign, fills, limits, of_three_versions, update, ANY_TIME, LIVE};
use pit_host::{Error, Line, LineVersion, PageIndex, Published, Store, Ticket, Version};

/// A branch from version 2 of the three: it reads as its source up to there, and then each goes on by itself.
#[test]
fn a_branch_reads_as_its_source_and_goes_on_by_itself() {
    let mut store = of_three_versions();
    let plan = store.line_from(LIVE, Version(2));
    assert_eq!((plan, store.recent(plan)), (Line(1), Ok(Version(2))));
    for v in (0..=2).map(Version) {
        assert_eq!(fills(&store, plan, v), fills(&store, LIVE, v));
    }
    assert_eq!(store.size(plan, Version(3)), Err(Error::NotPublished));

    assert_eq!(update(&mut store, plan, None, &[20, 21]), Ok(Version(3)));
    assert_eq!(update(&mut store, LIVE, Some(0), &[8]), Ok(Version(4)));
    assert_eq!(update(&mut store, plan, Some(3), &[22]), Ok(Version(4)));
    let pages = |line, version| fills(&store, line, Version(version)).unwrap();
    assert_eq!(pages(plan, 2), [1, 5, 6, 4]);
    assert_eq!(pages(plan, 3), [1, 5, 6, 4, 20, 21]);
    assert_eq!(pages(plan, 4), [1, 5, 6, 22, 20, 21]);
    assert_eq!(pages(LIVE, 3), [1, 5, 6, 4, 7]);
    assert_eq!(pages(LIVE, 4), [8, 5, 6, 4, 7]);
    let stamps = [0, 1, 3, 4].map(|page| store.stamp(plan, Version(4), PageIndex(page)));
    assert_eq!(stamps, [1, 2, 4, 3].map(|v| Ok(Version(v))));
    let of_live = store.view(LIVE, Version(3), PageIndex(1)).unwrap();
    let of_plan = store.view(plan, Version(4), PageIndex(1)).unwrap();
    assert!(std::ptr::eq(of_live, of_plan), "the page is shared");
}

/// A node's numbers say on which line an update got its version, whichever line weaves over it.
#[test]
fn child_numbers_name_the_line_of_their_update() {
    let mut store = of_three_versions();
    let plan = store.line_from(LIVE, Version(1));
    update(&mut store, plan, Some(0), &[9]).unwrap();
    let other = store.line_from(plan, Version(2));
    let (ticket, assigned) = assign(&mut store, other, Some(3), &[10]).unwrap();
    assert_eq!(assigned.version, Version(3));
    let root = store.weave(ticket).unwrap();
    assert_eq!(
        (root.version.line(), root.version.version()),
        (other, Version(3))
    );
    let number = |line, version| LineVersion::new(line, Version(version)).0 as u32;
    assert_eq!((root.left, root.right), (number(plan, 2), number(other, 3)));
    let inner = store.weave(ticket).unwrap();
    assert_eq!(
        (inner.left, inner.right),
        (number(LIVE, 1), number(other, 3))
    );
}

/// Lines wait for no other: each publishes its own versions in their order.
#[test]
fn lines_publish_by_themselves() {
    let mut store = Store::format(limits(8, 16, 4)).unwrap();
    let plan = store.line_from(LIVE, Version(0));
    let (slow, _) = assign(&mut store, LIVE, None, &[1]).unwrap();
    assert_eq!(update(&mut store, plan, None, &[2]), Ok(Version(1)));
    assert_eq!(update(&mut store, plan, None, &[3]), Ok(Version(2)));
    assert_eq!(store.publish(LIVE, ANY_TIME), Ok(Published::Waiting));
    assert_eq!(store.recent(LIVE), Ok(Version(0)));
    store.weave(slow).unwrap();
    assert_eq!(store.publish(plan, ANY_TIME), Ok(Published::Waiting));
    assert_eq!(
        store.publish(LIVE, ANY_TIME),
        Ok(Published::Now(Version(1)))
    );
    assert_eq!(fills(&store, LIVE, Version(1)), Ok(vec![1]));
    assert_eq!(fills(&store, plan, Version(2)), Ok(vec![2, 3]));
}

/// A branch goes on from what it shares: a page that it resends has the stamp that its source gives. What the source does
/// later makes no difference to it.
#[test]
fn across_a_branch() {
    let mut store = Store::format(limits(64, 256, 32)).unwrap();
    update(&mut store, LIVE, None, &[1, 2, 3]).unwrap();
    update(&mut store, LIVE, Some(1), &[2]).unwrap();
    update(&mut store, LIVE, Some(2), &[4]).unwrap();
    let plan = store.line_from(LIVE, Version(3));
    let early = store.line_from(LIVE, Version(1));
    update(&mut store, LIVE, Some(0), &[9, 9, 9]).unwrap();
    update(&mut store, plan, Some(0), &[1, 2, 4]).unwrap();
    update(&mut store, early, Some(0), &[1, 2, 4]).unwrap();
    let later = store.line_from(plan, Version(4));
    update(&mut store, later, Some(0), &[1, 9, 4]).unwrap();
    assert_eq!(stamps(&store, LIVE, 4), [4, 4, 4]);
    assert_eq!(stamps(&store, plan, 3), [1, 1, 3]);
    assert_eq!(stamps(&store, plan, 4), [1, 1, 3]);
    assert_eq!(stamps(&store, early, 2), [1, 1, 2]);
    assert_eq!(stamps(&store, later, 4), [1, 1, 3]);
    assert_eq!(stamps(&store, later, 5), [1, 5, 3]);
}

/// 21 stands last in BRANCH, before 19.
#[test]
fn rows_16_and_21_of_branch() {
    let mut store = at_all_stages();
    for version in [4, 5, u64::MAX].map(Version) {
        refused(&mut store, 16, |s| s.branch(LIVE, version).map(drop));
    }
    for line in 1..16 {
        let (from, version) = (Line(line / 2), Version(3 * (line % 2)));
        let version = version.min(store.recent(from).unwrap());
        assert_eq!(store.line_from(from, version), Line(line));
    }
    for line in (0..16).map(Line) {
        refused(&mut store, 21, |s| s.branch(line, Version(0)).map(drop));
        let above = Version(store.recent(line).unwrap().0 + 1);
        refused(&mut store, 16, |s| s.branch(line, above).map(drop));
    }
    refused(&mut store, 20, |s| s.branch(Line(16), Version(9)).map(drop));
    assert!(store.append(Line(15), Ticket(5)).is_ok());
}
