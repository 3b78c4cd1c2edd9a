//! Random stores come back just as they were, and no random damage of their files goes unseen.

use super::scene::{in_form_4, in_form_5, saved, sealed, Folder, HEADER};
use crate::random::{first_seed, named, Random};
use crate::support::call::make;
use crate::support::draw::{draw as draw_call, Mix, Shown, CALLS};
use pit_host::{FileError, Limits, Store};
use std::fs;

/// How many stores each test draws.
const SCENES: u64 = 200;
/// How often each store's file is damaged.
const DAMAGES: u64 = 60;

/// Calls with more lines and windows than elsewhere, and more that is left in work: a store has few calls.
const MIX: Mix = Mix {
    lines: 4,
    windows: 8,
    ..CALLS
};

/// The seeds of a test's stores.
fn seeds(test: &str) -> impl Iterator<Item = u64> {
    let first = first_seed(test);
    (0..named("PIT_SCENES", SCENES)).map(move |i| first.wrapping_add(i))
}

/// A store of random limits after random calls, with tickets that have come to every stage.
fn draw(random: &mut Random) -> Store {
    let page_size = random.pick(&[16, 32, 64, 256]);
    let [pages, nodes, updates] = [150, 600, 40].map(|most| 1 + random.below(most));
    let mut store = Store::format(Limits::new(page_size, pages, nodes, updates)).unwrap();
    for _ in 0..random.below(150) {
        let call = draw_call(random, &Shown::of(&store), &MIX);
        let _ = make(&mut store, &call); // refused, it has changed nothing
    }
    store
}

/// Which of what can be in work in a store is: a ticket partly put, a tree half woven, lines, windows; and whether one of its
/// areas is full.
fn kinds(store: &Store) -> [bool; 5] {
    let (s, register) = (store.state(), store.areas().register());
    let left = [s.pages - s.taken, s.nodes - s.places, s.updates - s.tickets];
    [
        register
            .iter()
            .any(|r| r.put != 0 && r.put.count_ones() < r.n as u32),
        register.iter().any(|r| r.woven != 0 && r.woven < r.count),
        s.begun > 1,
        !store.windows().list().is_empty(),
        left.contains(&0),
    ]
}

/// The file is as long as what is taken, byte for byte as the form says, and comes back; and so it does in the form before,
/// with the areas whole.
#[test]
fn drawn_stores_come_back() {
    let folder = Folder::new("drawn");
    let mut counts = [0; 5];
    for seed in seeds("drawn_stores_come_back") {
        let store = draw(&mut Random::new(seed));
        let bytes = saved(&folder, &store);
        let s = store.state();
        let taken = s.size * s.taken + 8 * s.places + 144 * s.tickets;
        assert_eq!(bytes.len() as u64, HEADER as u64 + taken, "PIT_SEED={seed}");
        assert!(bytes == in_form_5(&store, &[]), "PIT_SEED={seed}");
        let loaded = Store::load(folder.file()).unwrap();
        assert!(loaded == store, "PIT_SEED={seed}");
        fs::write(folder.file(), in_form_4(&store)).unwrap();
        let loaded = Store::load(folder.file()).unwrap();
        assert!(loaded == store, "PIT_SEED={seed}, in form 4");
        for (count, is) in counts.iter_mut().zip(kinds(&store)) {
            *count += u64::from(is);
        }
    }
    println!("{counts:?} of the stores: partly put, half woven, lines, windows, full");
    assert_often(&counts);
}

/// Each kind has come up in one of ten scenes, or more, where there are as many as usual.
fn assert_often(counts: &[u64]) {
    let fewer = named("PIT_SCENES", SCENES) < SCENES;
    let often = counts.iter().all(|count| *count > SCENES / 10);
    assert!(fewer || often, "{counts:?}");
}

/// Bytes damaged in some way: some changed, overwritten, exchanged, lost or added.
fn damage(random: &mut Random, bytes: &[u8]) -> Vec<u8> {
    let mut damaged = bytes.to_vec();
    let length = bytes.len() as u64;
    // half of the damage is to the header
    let most = if random.one_in(2) {
        HEADER as u64
    } else {
        length
    };
    let at = random.below(most) as usize;
    let run = (1 + random.below(64)).min(length - at as u64) as usize;
    let from = random.below(length - run as u64 + 1) as usize;
    match random.below(9) {
        0 => damaged[at] ^= 1 << random.below(8),
        1 => damaged[at] = random.next() as u8,
        2 => damaged[at..at + run].fill(0),
        3 => damaged[at..at + run].fill(0xff),
        4 => damaged[at..at + run].copy_from_slice(&random.bytes(run)),
        5 => damaged.copy_within(from..from + run, at),
        6 => damaged.truncate(at),
        7 => drop(damaged.drain(at..at + run)),
        _ => drop(damaged.splice(at..at, random.bytes(run))),
    }
    damaged
}

/// Whatever is damaged, the file is refused, and without a panic.
#[test]
fn no_damage_of_a_drawn_store_is_unseen() {
    let folder = Folder::new("drawn-damage");
    for seed in seeds("no_damage_of_a_drawn_store_is_unseen") {
        let mut random = Random::new(seed);
        let store = draw(&mut random);
        let last_part = random.pick(&[0, 8, 1, 100]);
        let bytes = in_form_5(&store, &random.bytes(last_part));
        for _ in 0..DAMAGES {
            let damaged = damage(&mut random, &bytes);
            fs::write(folder.file(), &damaged).unwrap();
            match Store::load(folder.file()) {
                Ok(loaded) => {
                    assert!(damaged == bytes, "PIT_SEED={seed}: unseen");
                    assert!(loaded == store, "PIT_SEED={seed}: another store");
                }
                Err(FileError::Numbers) => {
                    // all else was found right first
                    let as_it_was = damaged == bytes && last_part > 0;
                    assert!(as_it_was, "PIT_SEED={seed}: unseen");
                }
                Err(FileError::Io { error, .. }) => panic!("PIT_SEED={seed}: {error}"),
                Err(_) => assert!(damaged != bytes, "PIT_SEED={seed}: refused undamaged"),
            }
        }
    }
}

/// Damaged on purpose, with the checksum made right, a file is refused or is some store's: then that one can be saved.
#[test]
fn sealed_damage_does_no_harm() {
    let folder = Folder::new("drawn-sealed");
    let mut counts = [0; 2];
    for seed in seeds("sealed_damage_does_no_harm") {
        let mut random = Random::new(seed);
        let store = draw(&mut random);
        let bytes = in_form_5(&store, &[]);
        for _ in 0..DAMAGES / 10 {
            let damaged = damage(&mut random, &bytes);
            if damaged.len() < HEADER {
                continue;
            }
            fs::write(folder.file(), sealed(damaged)).unwrap();
            match Store::load(folder.file()) {
                Ok(loaded) => {
                    let again = loaded.save(folder.file());
                    again.unwrap_or_else(|error| panic!("PIT_SEED={seed}: {error}"));
                    counts[0] += 1;
                }
                Err(FileError::Checksum) => panic!("PIT_SEED={seed}: the checksum is right"),
                Err(FileError::Io { error, .. }) => panic!("PIT_SEED={seed}: {error}"),
                Err(_) => counts[1] += 1,
            }
        }
    }
    println!("{counts:?} files loaded and refused");
    assert_often(&counts);
}
