//! Snapshots: what they read, how they go on, what they say has changed, and that nothing changes what they show. `PIT_SEED`
//! names the first seed, `PIT_SCENES` how many scenes each test has.

use crate::differential::{bytes_of, published, Pair, PAGE};
use crate::folder::Folder;
use crate::random::{scenes, Random};
use crate::road::{pause, Road, BLOB};
use pit_host::{ByteOffset, Error, Limits, Line, PageIndex, Shared, Snapshot, Store, Version};
use std::collections::BTreeMap;

const SCENES: u64 = 60;

/// Some calls, and then some looks, so many times.
const ROUNDS: u64 = 8;
const CALLS: u64 = 12;

fn some_limits(random: &mut Random) -> Limits {
    let (pages, nodes) = (40 + random.below(200), 200 + random.below(1_000));
    Limits::new(PAGE as u64, pages, nodes, 12 + random.below(60))
}

fn some_pair(mut random: Random) -> Pair {
    let limits = some_limits(&mut random);
    let mut pair = Pair::new(random, limits);
    pair.most = pair.random.pick(&[3, 4, 9]);
    pair
}

/// A snapshot, filled half the time.
fn some_snapshot(pair: &mut Pair, line: Line, version: Version) -> Result<Snapshot, Error> {
    let snapshot = pair.shared.snapshot(line, version)?;
    if pair.random.one_in(2) {
        snapshot.filled()
    } else {
        Ok(snapshot)
    }
}

/// All bytes of a snapshot.
fn all(snapshot: &Snapshot) -> Vec<u8> {
    let mut bytes = vec![0; snapshot.size() as usize];
    let read = snapshot.read(ByteOffset(0), &mut bytes);
    read.expect("a published version");
    bytes
}

// What they read.

/// A long READ is copied without the lock. It gives the same bytes, and is refused as a short one.
#[test]
fn long_reads_are_as_short_ones() {
    const PAGE: usize = 4_096;
    let limits = Limits::worst(PAGE as u64, 256, 8, 64).expect("in range");
    let shared = Shared::new(Store::format(limits).expect("in range"));
    let live = Line(0);
    let mut random = Random::new(1);
    let pages: Vec<Vec<u8>> = (0..160).map(|_| random.bytes(PAGE)).collect();
    for some in pages.chunks(64) {
        let some: Vec<&[u8]> = some.iter().map(Vec::as_slice).collect();
        shared.append_pages(live, &some).expect("room");
    }
    let (all, newest) = (pages.concat(), Version(3));
    let snapshot = shared.snapshot(live, newest).expect("published");
    let filled = snapshot.clone().filled().expect("published");
    for offset in [0, 1, PAGE - 1, PAGE, 3 * PAGE + 17] {
        for length in [
            262_143,
            262_144,
            300_000,
            all.len() - offset,
            all.len() - offset + 1,
        ] {
            let at = ByteOffset(offset as u64);
            let due = match all.get(offset..offset + length) {
                Some(due) => (Ok(()), due.to_vec()),
                None => (Err(Error::OutsideSnapshot), vec![9; length]),
            };
            let mut buffers = [(); 3].map(|()| vec![9; length]);
            let [by_call, by_snapshot, by_filled] = &mut buffers;
            let read = [
                shared.read(live, newest, at, by_call),
                snapshot.read(at, by_snapshot),
                filled.read(at, by_filled),
            ];
            for given in read.into_iter().zip(buffers) {
                assert!(given == due, "{length} bytes from {offset} on");
            }
        }
    }
    let mut buffer = vec![9; 300_000];
    let refused = [
        (live, Version(4), 0, Error::NotPublished),
        (Line(1), newest, 0, Error::NoSuchLine),
        (live, newest, u64::MAX, Error::OutsideSnapshot),
        (live, newest, u64::MAX - 299_999, Error::OutsideSnapshot),
    ];
    for (line, version, offset, due) in refused {
        let read = shared.read(line, version, ByteOffset(offset), &mut buffer);
        assert_eq!(read, Err(due));
        assert!(buffer.iter().all(|byte| *byte == 9));
    }
}

/// Pages of a store are put there again, as a snapshot shows them.
#[test]
fn a_view_is_put_again() {
    let limits = Limits::new(PAGE as u64, 8, 20, 4);
    let shared = Shared::new(Store::format(limits).expect("in range"));
    let (live, pages) = (Line(0), [[1; PAGE], [2; PAGE]]);
    let done = shared.append_pages(live, &[&pages[0], &pages[1]]);
    assert_eq!(done, Ok(Version(1)));
    let first = shared.snapshot(live, Version(1)).expect("published");
    let view = |page| first.view(PageIndex(page)).expect("a page of it");
    let done = shared.update(live, PageIndex(0), &[view(1), view(0)]);
    assert_eq!(done, Ok(Version(2)));
    let second = shared.snapshot(live, Version(2)).expect("published");
    assert_eq!(all(&second), [pages[1], pages[0]].concat());
    assert_eq!(all(&first), pages.concat());
}

#[test]
fn a_snapshot_reads_as_the_calls_do() {
    let mut refusals = BTreeMap::new();
    scenes("a_snapshot_reads_as_the_calls_do", SCENES, |random| {
        let mut pair = some_pair(random);
        for _ in 0..ROUNDS {
            pair.run(CALLS);
            assert!(pair.shared.to_store() == pair.alone);
            for _ in 0..8 {
                let line = pair.line();
                let version = pair.version(line);
                let refusal = look(&mut pair, line, version);
                *refusals.entry(refusal).or_insert(0) += 1;
            }
        }
    });
    println!("{refusals:?}");
    for refusal in [None, Some(Error::NotPublished), Some(Error::NoSuchLine)] {
        assert!(refusals.contains_key(&refusal.map(|error| error.number())));
    }
}

/// Compares a snapshot with the calls; gives the number of the refusal where it was refused.
fn look(pair: &mut Pair, line: Line, version: Version) -> Option<u64> {
    let snapshot = pair.shared.snapshot(line, version);
    let snapshot = match (snapshot, bytes_of(&pair.alone, line, version)) {
        (Ok(snapshot), Ok(bytes)) => {
            assert_eq!(snapshot.size(), bytes.len() as u64);
            assert_eq!(snapshot.pages(), (bytes.len() / PAGE) as u64);
            snapshot
        }
        (refused, due) => {
            assert_eq!(refused.err(), due.err());
            return due_number(pair, line, version);
        }
    };
    assert_eq!((snapshot.line(), snapshot.version()), (line, version));
    let filled = snapshot.clone().filled().expect("a published version");
    for snapshot in [snapshot, filled] {
        views_alike(&pair.alone, &snapshot);
        for _ in 0..6 {
            reads_alike(pair, &snapshot);
        }
    }
    None
}

fn due_number(pair: &Pair, line: Line, version: Version) -> Option<u64> {
    let due = pair.alone.size(line, version);
    due.err().map(|refused| refused.number())
}

fn views_alike(store: &Store, snapshot: &Snapshot) {
    let (line, version) = (snapshot.line(), snapshot.version());
    let past = [u64::MAX, 1 << 32, snapshot.pages() + 65_536];
    for page in (0..snapshot.pages() + 2).chain(past).map(PageIndex) {
        assert_eq!(snapshot.view(page), store.view(line, version, page));
    }
}

/// A read of any range, into a buffer that was not empty.
fn reads_alike(pair: &mut Pair, snapshot: &Snapshot) {
    let random = &mut pair.random;
    let offset = match random.below(12) {
        0 => u64::MAX - random.below(20),
        _ => random.below(snapshot.size() + 3),
    };
    let length = random.below(snapshot.size() + 3) as usize;
    let length = length / random.pick(&[1, 2, 9]);
    let (mut buffer, mut due) = (vec![0xee; length], vec![0xee; length]);
    let read = snapshot.read(ByteOffset(offset), &mut buffer);
    let (line, version) = (snapshot.line(), snapshot.version());
    let alone = pair.alone.read(line, version, ByteOffset(offset), &mut due);
    assert_eq!((read, buffer), (alone, due), "{length} bytes from {offset}");
}

// How they go on.

#[test]
fn an_advanced_snapshot_is_just_the_newest() {
    let mut advanced = 0;
    scenes(
        "an_advanced_snapshot_is_just_the_newest",
        SCENES,
        |random| {
            let (mut pair, mut held) = (some_pair(random), vec![]);
            for _ in 0..ROUNDS {
                pair.run(CALLS);
                for (line, version) in published(&pair.alone) {
                    if pair.random.one_in(4) {
                        held.push(some_snapshot(&mut pair, line, version).expect("published"));
                    }
                }
                for snapshot in &mut held {
                    if pair.random.one_in(3) {
                        advanced += u64::from(advance(&pair, snapshot));
                    }
                }
            }
        },
    );
    println!("{advanced} advanced");
    assert!(advanced > 0);
}

/// Advances a snapshot of the store that is there; tells whether it is another version then.
fn advance(pair: &Pair, snapshot: &mut Snapshot) -> bool {
    let before = snapshot.version();
    let newest = pair.alone.recent(snapshot.line());
    advance_to_newest(pair, snapshot, newest != Ok(before));
    newest != Ok(before)
}

/// Advances a snapshot of any store, which tells that it is then another.
fn advance_to_newest(pair: &Pair, snapshot: &mut Snapshot, is_other: bool) {
    let line = snapshot.line();
    let newest = pair.alone.recent(line).expect("a line that has begun");
    assert_eq!(snapshot.advance(), Ok(is_other));
    assert_eq!((snapshot.line(), snapshot.version()), (line, newest));
    assert_eq!(Ok(snapshot.size()), pair.alone.size(line, newest));
    views_alike(&pair.alone, snapshot);
    assert_eq!(Ok(all(snapshot)), bytes_of(&pair.alone, line, newest));
    assert_eq!(snapshot.advance(), Ok(false));
}

// What has changed.

#[test]
fn the_changed_pages_of_every_pair() {
    let mut changed = [0; 2];
    scenes("the_changed_pages_of_every_pair", SCENES / 2, |random| {
        let mut pair = some_pair(random);
        pair.run(CALLS * ROUNDS);
        let mut held = vec![];
        let versions = published(&pair.alone);
        for _ in 0..16 {
            let (line, version) = pair.random.pick(&versions);
            held.push(some_snapshot(&mut pair, line, version).expect("published"));
        }
        for one in &held {
            for other in &held {
                let due = due_changes(&pair.alone, one, other);
                changed[usize::from(one.line() == other.line())] += due.len();
                assert_eq!(one.changed(other), Ok(due), "{one:?} after {other:?}");
            }
        }
    });
    println!("{changed:?} pages");
    assert!(changed.iter().all(|pages| *pages > 0));
}

/// The pages to fetch for a version where another one is there: by their stamps on one line, by their bytes on two.
fn due_changes(store: &Store, to: &Snapshot, from: &Snapshot) -> Vec<PageIndex> {
    let older = to.version().min(from.version());
    let newer = to.version().max(from.version());
    let is_changed = |page: &PageIndex| {
        let view = |of: &Snapshot| store.view(of.line(), of.version(), *page);
        let stamp = || store.stamp(to.line(), newer, *page);
        let on_one_line = to.line() == from.line();
        match view(from) {
            Err(Error::OutsideSnapshot) => true,
            _ if on_one_line => stamp().expect("a page of both") > older,
            bytes => bytes != view(to),
        }
    };
    (0..to.pages()).map(PageIndex).filter(is_changed).collect()
}

// That nothing changes what they show.

/// Pages where they lie, held while all goes on.
#[test]
fn what_a_snapshot_shows_stays() {
    let folder = Folder::new("stays");
    let file = folder.0.join("store");
    scenes("what_a_snapshot_shows_stays", SCENES / 2, |random| {
        let mut pair = some_pair(random);
        pair.run(CALLS * 4);
        let mut snapshots = vec![];
        for (line, version) in published(&pair.alone) {
            snapshots.push(some_snapshot(&mut pair, line, version).expect("published"));
        }
        let views = snapshots.iter().flat_map(views);
        let views: Vec<(&[u8], Vec<u8>)> = views.map(|view| (view, view.to_vec())).collect();
        let same = || assert!(views.iter().all(|(view, bytes)| view == bytes));

        pair.shared.save(&file).expect("a file");
        pair.run(CALLS * 2);
        same();
        pair.shared.reload(&file).expect("the file");
        pair.alone = pair.shared.to_store();
        pair.run(CALLS * 2);
        same();
        for snapshot in &snapshots {
            advance_to_newest(&pair, &mut snapshot.clone(), true);
        }
        let limits = Limits::new(PAGE as u64, 2_000, 20_000, 500);
        pair.shared.rebuild(limits, &[]).expect("room for all");
        while pair
            .shared
            .append_pages(Line(0), &[&[9; PAGE][..]; 40])
            .is_ok()
        {}
        same();
        drop(pair);
        same();
    });
}

/// All pages of a snapshot, where they lie.
fn views(snapshot: &Snapshot) -> impl Iterator<Item = &[u8]> {
    let pages = (0..snapshot.pages()).map(PageIndex);
    pages.map(move |page| snapshot.view(page).expect("a page of it"))
}

/// Where another store has come in place of its own, a filled snapshot reads on, and one that is not is refused until it advances.
#[test]
fn another_store_takes_the_place() {
    let folder = Folder::new("place");
    let (file, live) = (folder.0.join("store"), Line(0));
    let shared = Shared::new(Store::format(Limits::new(16, 40, 80, 10)).expect("in range"));
    for fill in 1..=3 {
        let done = shared.update(live, PageIndex(0), &[&[fill; PAGE]]);
        done.expect("room for all");
        if fill == 2 {
            shared.save(&file).expect("a file");
        }
    }
    let unfilled = shared.snapshot(live, Version(3)).expect("published");
    let filled = unfilled.clone().filled().expect("published");
    let replaced: [&dyn Fn(); 2] = [&|| shared.reload(&file).expect("the file"), &|| {
        drop(shared.rebuild(shared.limits(), &[]).expect("room"))
    }];
    for replace in replaced {
        replace();
        let recent = shared.recent(live).expect("a line");
        let mut buffer = [0xee; 4];
        let refused = Err(Error::NotPublished);
        assert_eq!(unfilled.view(PageIndex(0)).map(drop), refused);
        assert_eq!(unfilled.view(PageIndex(9)).map(drop), refused);
        assert_eq!(unfilled.read(ByteOffset(0), &mut buffer), refused);
        assert_eq!(unfilled.read(ByteOffset(99), &mut buffer), refused);
        assert_eq!(unfilled.clone().filled().map(drop), refused);
        assert_eq!(unfilled.changed(&filled), Err(Error::NotPublished));
        assert_eq!(buffer, [0xee; 4]);
        assert_eq!(filled.view(PageIndex(0)), Ok(&[3; PAGE][..]));
        assert_eq!(filled.changed(&filled), Ok(vec![]));

        for mut snapshot in [unfilled.clone(), filled.clone()] {
            assert_eq!(snapshot.advance(), Ok(true));
            assert_eq!(snapshot.version(), recent);
            assert_eq!(all(&snapshot), [recent.0 as u8; PAGE]);
            assert_eq!(snapshot.advance(), Ok(false));
        }
    }
}

/// A version of the same number in another store is another one, also where its page has the same place there.
#[test]
fn another_store_has_other_versions() {
    let folder = Folder::new("versions");
    let file = folder.0.join("store");
    let of = |fills: &[u8]| {
        let store = Store::format(Limits::new(16, 40, 80, 10)).expect("in range");
        let shared = Shared::new(store);
        for fill in fills {
            let done = shared.update(Line(0), PageIndex(0), &[&[*fill; PAGE]]);
            done.expect("room for all");
        }
        shared
    };
    let shared = of(&[1, 2, 3]);
    let first = shared.snapshot(Line(0), Version(1)).expect("published");
    let former = first.filled().expect("published");
    for fills in [&[9][..], &[8, 7]] {
        of(fills).save(&file).expect("a file");
        shared.reload(&file).expect("the file");
        let mut snapshot = former.clone();
        assert_eq!(snapshot.advance(), Ok(true));
        assert_eq!(snapshot.version(), Version(fills.len() as u64));
        assert_eq!(Some(&all(&snapshot)[0]), fills.last());
        let other = shared.snapshot(Line(0), Version(1)).expect("published");
        assert_eq!(other.changed(&former), Ok(vec![PageIndex(0)]));
        assert_eq!(former.changed(&other), Ok(vec![PageIndex(0)]));
    }
}

// Beside a writer.

#[test]
fn readers_beside_a_writer_see_whole_versions() {
    const VERSIONS: u64 = 2_000;
    let limits = Limits::worst(PAGE as u64, BLOB, VERSIONS, BLOB).expect("in range");
    let shared = Shared::new(Store::format(limits).expect("in range"));
    Road::new(VERSIONS).run(&shared, pause);
}
