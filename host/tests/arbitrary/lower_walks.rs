//! By hand: STAMP where a lower walk is lost, or leads to a version that is not lower. The search ends there, and the version
//! that it has reached is answered; only where the walk of the version asked for is lost, the call is refused.

use crate::memory::Memory;
use crate::scene::Scene;
use crate::stamps::{stamp, LOST, NOT_LOWER, NOT_THERE, NO_SUCH_PAGE, OTHER_BYTES, PAST, REFUSED};
use crate::support::call::{Begin, Call};
use pit_host::{Limits, Line, Minute, PageIndex, PartsMut, Record, Store, Version, Windows};

/// Four versions of two pages. The first writes both, the others resend page 0, and page 1 with it. Version k's root lies at
/// place 3 (k - 1), its leaves at the two places after it.
fn resent() -> Scene {
    let limits = Limits::new(16, 16, 32, 8);
    let mut memory = Memory::new(&[0; 256], &[0; 64], &[Record::default(); 8]);
    let mut store = Store::format_in(limits, memory.parts_mut()).expect("limits in range");
    for k in 1..=4 {
        update(&mut store, Line(0), k);
    }
    let state = store.state();
    Scene {
        state,
        windows: Windows::default(),
        memory,
    }
}

/// An update of both pages, which becomes version k.
fn update(store: &mut Store<PartsMut<'_>>, line: Line, k: u64) {
    let ticket = store.begin(2).expect("room for all");
    for i in 0..2 {
        let done = store.put(ticket, i, &[7; 16]);
        done.expect("each page once");
    }
    let assigned = store.write(line, ticket, PageIndex(0));
    assert_eq!(assigned.map(|a| (a.version, a.nodes)), Ok((Version(k), 3)));
    for _ in 0..3 {
        store.weave(ticket).expect("a node is left");
    }
    let published = store.publish(line, Minute(0)).expect("a line");
    assert_eq!(published.version(), Some(Version(k)));
}

/// The stamp that is due of page 0, with the end that the search meets, both by the library and by the definition.
fn due(scene: &mut Scene, line: u64, v: u64, answer: Result<u64, u64>, end: &str) {
    due_of(scene, (line, v, 0), answer, end);
}

fn due_of(scene: &mut Scene, of: (u64, u64, u64), answer: Result<u64, u64>, end: &str) {
    let (line, v, page) = of;
    let defined = stamp(scene, line, v, page);
    assert_eq!((defined.answer, defined.end), (answer, end), "{of:?}");
    let made = scene.make(&Call::Stamp(Line(line), Version(v), PageIndex(page))); // which compares the version answered
    assert_eq!(made, Ok(answer.err().unwrap_or(0)), "{of:?}");
}

/// Changes one of the two numbers of the node at a place.
fn change(scene: &mut Scene, place: usize, right: usize, to: u32) {
    scene.memory.nodes.parts_mut()[2 * place + right] = to;
}

#[test]
fn nothing_is_damaged() {
    let mut scene = resent();
    for v in 1..=4 {
        due(&mut scene, 0, v, Ok(1), NO_SUCH_PAGE);
    }
    due(&mut scene, 0, 0, Err(17), REFUSED);
    due(&mut scene, 0, 5, Err(16), REFUSED);
    scene.memory.pages.parts_mut()[2 * 16 + 15] ^= 1; // the last byte of version 2's page 0
    due(&mut scene, 0, 4, Ok(3), OTHER_BYTES);
    due(&mut scene, 0, 2, Ok(2), OTHER_BYTES);
    due(&mut scene, 0, 1, Ok(1), NO_SUCH_PAGE);
    due_of(&mut scene, (0, 4, 1), Ok(1), NO_SUCH_PAGE);
}

#[test]
fn a_node_of_a_lower_version_is_lost() {
    for place in [3, 4] {
        let mut scene = resent(); // version 2's root, or its leaf of page 0
        change(&mut scene, place, 0, u32::MAX);
        change(&mut scene, place, 1, u32::MAX);
        due(&mut scene, 0, 4, Ok(3), LOST);
        due(&mut scene, 0, 3, Ok(3), LOST);
        due(&mut scene, 0, 2, Err(19), REFUSED);
        due(&mut scene, 0, 1, Ok(1), NO_SUCH_PAGE);
    }
}

#[test]
fn a_child_of_a_lower_version_is_no_version() {
    for child in [0, 9, 65_537, u32::MAX] {
        let mut scene = resent();
        change(&mut scene, 3, 0, child);
        due(&mut scene, 0, 4, Ok(3), LOST);
        due(&mut scene, 0, 2, Err(19), REFUSED);
    }
}

#[test]
fn a_lower_leaf_has_a_page_past_the_area() {
    for number in [16, 1_000, u32::MAX] {
        let mut scene = resent();
        change(&mut scene, 4, 0, number);
        due(&mut scene, 0, 4, Ok(3), PAST);
        due(&mut scene, 0, 2, Err(19), REFUSED);
    }
}

#[test]
fn a_lower_version_is_not_in_the_register() {
    let mut scene = resent();
    scene.memory.register.parts_mut()[1].name = 7;
    due(&mut scene, 0, 4, Ok(3), NOT_THERE);
    due(&mut scene, 0, 2, Err(19), REFUSED);
    due(&mut scene, 0, 1, Ok(1), NO_SUCH_PAGE);
}

/// A lower version's record says that it has one page: page 1 ends there, as it would if it had been appended later.
#[test]
fn a_lower_version_has_fewer_pages() {
    let mut scene = resent();
    let record = &mut scene.memory.register.parts_mut()[1];
    (record.last, record.size) = (0, 1);
    due_of(&mut scene, (0, 4, 1), Ok(3), NO_SUCH_PAGE);
    due_of(&mut scene, (0, 2, 1), Err(17), REFUSED);
}

/// A lower version's root leads to a version that is not lower, its own or a later one: going on would never end.
#[test]
fn a_lower_walk_leads_back_up() {
    for child in [3, 4] {
        let mut scene = resent();
        change(&mut scene, 3, 0, child); // of version 2's root
        due(&mut scene, 0, 4, Ok(3), NOT_LOWER);
        due(&mut scene, 0, 3, Ok(3), NOT_LOWER);
    }
    // all roots lead to version 4
    let mut scene = resent();
    for place in [0, 3, 6] {
        change(&mut scene, place, 0, 4);
    }
    for v in 1..=4 {
        due(&mut scene, 0, v, Ok(4), NOT_LOWER);
    }
}

/// The version asked for leads to a later one: the search begins there, and the answer may be above what was asked for.
#[test]
fn a_version_leads_to_a_later_one() {
    let mut scene = resent();
    change(&mut scene, 0, 0, 3); // of version 1's root
    due(&mut scene, 0, 1, Ok(2), NOT_LOWER);
    due(&mut scene, 0, 4, Ok(2), NOT_LOWER);
}

/// A line that is its own source: no version that it shares is found, and a version of its own ends there.
#[test]
fn a_line_that_comes_from_itself() {
    let mut scene = resent();
    let mut store = Store::resume(scene.state, scene.windows, scene.memory.parts_mut());
    let plan = store.line_from(Line(0), Version(4));
    update(&mut store, plan, 5);
    scene.state = store.state();
    due(&mut scene, 1, 5, Ok(1), NO_SUCH_PAGE);
    let mut of = scene.state.line(plan);
    of.source = 1;
    scene.state.set_line(plan, of);
    due(&mut scene, 1, 5, Ok(5), NOT_THERE);
    due(&mut scene, 1, 4, Err(19), REFUSED);
    due(&mut scene, 0, 4, Ok(1), NO_SUCH_PAGE);
}
