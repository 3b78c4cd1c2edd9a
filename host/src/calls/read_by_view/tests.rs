//! READ by VIEW answers as the proved READ does, over stores that calls left and over others. `PIT_SEED` names
//! the first seed, `PIT_SCENES` how many scenes there are.

use super::*;
use crate::calls::areas::Limits;
use crate::calls::counters::Minute;
use crate::calls::error::Error;
use crate::disk::journal::tests::random::Random;
use crate::disk::journal::tests::support::call::Begin;
use crate::shared::Shared;

const SIZE: u64 = 16;
const BLOB: u64 = 24;
const SCENES: u64 = 400;
const ACCEPTED: &str = "the store accepts the call";

/// A blob that is filled on line 0, and then updates on two lines. At last a ticket with a page that is put and one that is not.
fn store(random: &mut Random) -> Store {
    let limits = Limits::new(SIZE, 120, 600, 30);
    let mut store = Store::format(limits).expect("limits in range");
    update(&mut store, random, Line(0), 0..BLOB);
    store.line_from(Line(0), Version(1));
    for _ in 0..12 {
        let (line, first) = (Line(random.below(2)), random.below(BLOB - 4));
        let end = first + 1 + random.below(4);
        update(&mut store, random, line, first..end);
    }
    let ticket = store.begin(2).expect(ACCEPTED);
    store.put(ticket, 1, &[9; SIZE as usize]).expect(ACCEPTED);
    store
}

fn update(store: &mut Store, random: &mut Random, line: Line, pages: std::ops::Range<u64>) {
    let count = pages.end - pages.start;
    let ticket = store.begin(count).expect(ACCEPTED);
    for i in 0..count {
        let bytes = random.bytes(SIZE as usize);
        store.put(ticket, i, &bytes).expect(ACCEPTED);
    }
    let first = PageIndex(pages.start);
    store.write(line, ticket, first).expect(ACCEPTED);
    while store.weave(ticket).expect(ACCEPTED).rest > 0 {}
    let published = store.publish(line, Minute(0)).expect(ACCEPTED);
    assert!(published.version().is_some());
}

/// The same with a number of its nodes, of its register or of its state changed, or several.
fn damaged(store: Store, random: &mut Random) -> Store {
    let (mut state, windows, mut areas) = store.into_parts();
    for _ in 0..random.below(4) {
        let lent = areas.parts_mut();
        let other = random.pick(lent.nodes);
        let numbers = [other, random.below(200) as u32, u32::MAX];
        let at = random.below(2 * state.places.max(1)) as usize;
        lent.nodes[at] = random.pick(&numbers);
        let at = random.below(state.tickets.max(1)) as usize;
        let (record, number) = (&mut lent.register[at], random.below(120));
        match random.below(20) {
            0 => record.size = number,
            1 => record.number = number,
            2 => record.ticket = number,
            3 => record.name = number,
            4 => record.put = number,
            5 => record.span = number,
            _ => (),
        }
    }
    let number = random.pick(&[0, 1, 15, 17, u64::MAX]);
    match random.below(30) {
        0 => state.size = number,
        1 => state.pages = number,
        2 => state.tickets = number,
        _ => (),
    }
    Store::resume(state, windows, areas)
}

/// What a READ answers, with the buffer as it is then.
type Answer = (Result<(), Error>, Vec<u8>);

fn answer(length: usize, read: impl FnOnce(&mut [u8]) -> Result<(), Error>) -> Answer {
    let mut buffer = vec![0xee; length];
    (read(&mut buffer), buffer)
}

/// A READ by the store, by one that threads share, and by a snapshot: all as the proved call answers, which is given.
fn try_read(random: &mut Random, store: &Store, shared: &Shared) -> Answer {
    let (line, version) = (Line(random.below(3)), Version(random.below(12)));
    let offset = ByteOffset(random.below(BLOB * SIZE));
    let length = match random.below(3) {
        0 => random.below(2 * SIZE),
        _ => 2 * SIZE + random.below((BLOB - 2) * SIZE),
    } as usize;
    let due = answer(length, |buffer| {
        store.read_front(line, version, offset, length as u64, buffer)
    });
    let read = answer(length, |buffer| store.read(line, version, offset, buffer));
    assert_eq!(read, due);
    let read = answer(length, |buffer| shared.read(line, version, offset, buffer));
    assert_eq!(read, due);
    let read = answer(length, |buffer| {
        shared.read_front(line, version, offset, length as u64, buffer)
    });
    assert_eq!(read, due);
    if let Ok(snapshot) = shared.snapshot(line, version) {
        let read = answer(length, |buffer| snapshot.read(offset, buffer));
        assert_eq!(read, due);
        let filled = snapshot.filled();
        let read = filled.map(|filled| answer(length, |buffer| filled.read(offset, buffer)));
        assert!(read.map_or(true, |read| read == due));
    }
    due
}

#[test]
fn a_read_by_view_answers_as_read() {
    let mut counts = [0; 5];
    crate::disk::journal::tests::random::scenes("a_read_by_view", SCENES, |mut random| {
        let whole = store(&mut random);
        let store = damaged(whole, &mut random);
        let shared = Shared::new(store.clone());
        for _ in 0..40 {
            let (answer, _) = try_read(&mut random, &store, &shared);
            let at = match answer {
                Ok(()) => 0,
                Err(Error::NotPublished) => 1,
                Err(Error::OutsideSnapshot) => 2,
                Err(Error::Damaged) => 3,
                Err(_) => 4,
            };
            counts[at] += 1;
        }
    });
    let fewer = crate::disk::journal::tests::random::named("PIT_SCENES", SCENES) < SCENES;
    assert!(fewer || counts.iter().all(|count| *count > 0), "{counts:?}");
}

/// A page in the midst of them is lost: nothing is copied, also of those before it.
#[test]
fn a_read_that_is_refused_leaves_the_buffer() {
    let mut random = Random::new(1);
    let (state, windows, mut areas) = store(&mut random).into_parts();
    let places = 2 * state.places as usize;
    areas.parts_mut().nodes[places / 4..places].fill(u32::MAX);
    let store = Store::resume(state, windows, areas);
    let shared = Shared::new(store.clone());
    let is_found = |page: &u64| {
        let page = PageIndex(*page);
        store.view(Line(0), Version(1), page).is_ok()
    };
    let found = (0..BLOB).take_while(is_found).count() as u64;
    assert!(0 < found && found < BLOB, "{found}");
    let length = (BLOB * SIZE) as usize;
    let lost = (Err(Error::Damaged), vec![0xee; length]);
    let (line, version, offset) = (Line(0), Version(1), ByteOffset(0));
    let read = answer(length, |buffer| store.read(line, version, offset, buffer));
    assert_eq!(read, lost);
    let read = answer(length, |buffer| shared.read(line, version, offset, buffer));
    assert_eq!(read, lost);
}

/// Pages that are long enough to be fetched ahead, and shorter ones: from any byte of the first on, of any length, and too few.
#[test]
fn pages_are_copied_one_after_the_other() {
    for size in [3, PREFETCHED - 1, PREFETCHED, 4_096] {
        let bytes: Vec<u8> = (0..3 * size).map(|k| (k % 251) as u8).collect();
        let pages = || bytes.chunks_exact(size).map(Some);
        for skip in [0, 1, size - 1] {
            for length in [0, 1, size - skip, size, 2 * size, 3 * size - skip] {
                let mut buffer = vec![0; length];
                assert_eq!(copy_pages(pages(), size, skip, &mut buffer), Some(()));
                assert!(
                    buffer == bytes[skip..skip + length],
                    "{size} {skip} {length}"
                );
            }
            let mut buffer = vec![0; 3 * size - skip + 1];
            assert_eq!(copy_pages(pages(), size, skip, &mut buffer), None);
            let lacking = pages().take(1).chain([None]);
            assert_eq!(copy_pages(lacking, size, skip, &mut buffer), None);
        }
    }
}
