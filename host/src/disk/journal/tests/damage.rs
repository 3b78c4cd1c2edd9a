//! Journals cut off or damaged anywhere.

use super::random::{first_seed, Random};
use super::scene::{empty_store, Scene, HEADER};
use crate::calls::error::Error;
use crate::calls::store::{Published, Store};
use crate::disk::file::FileError;
use crate::disk::journal::entry::{encode, seal, Content};
use crate::disk::journal::input::{Input, ReadAt};
use crate::disk::journal::{replay, Call, JournalError, JournalErrorKind, ReplayError, Replayed};
use std::cell::Cell;
use std::io;

const CALLS: u64 = 150;

/// The store that a journal makes, and what was found.
fn replayed(bytes: &[u8]) -> Result<(Store, Replayed), JournalError> {
    let mut store = empty_store();
    match replay(&input(bytes), &HEADER, &mut store) {
        Ok(replayed) => Ok((store, replayed)),
        Err(FileError::Journal(error)) => Err(error),
        Err(other) => panic!("{other}"),
    }
}

fn input(bytes: &[u8]) -> Input {
    Input::of(Box::new(bytes.to_vec()), bytes.len() as u64).unwrap()
}

/// Checks that a journal gives the store after its first entries, so many, and is cut just behind them.
fn check_prefix(bytes: &[u8], scene: &Scene, entries: usize) -> Replayed {
    let (store, replayed) = replayed(bytes).unwrap();
    assert_eq!(replayed.entries(), entries as u64);
    assert!(store == scene.stores[entries]);
    assert!(replayed.length as usize >= scene.begins[entries]);
    let cut = replayed.cut.as_ref().map_or(0, |cut| cut.bytes);
    assert_eq!(replayed.length + cut, bytes.len() as u64);
    replayed
}

#[test]
fn a_whole_journal_makes_the_same_store() {
    let seed = first_seed("a_whole_journal_makes_the_same_store");
    for seed in seed..seed + 20 {
        let scene = Scene::new(seed, 400);
        let replayed = check_prefix(&scene.bytes, &scene, 400);
        assert_eq!((replayed.cut, replayed.last), (None, scene.last()));
    }
}

#[test]
fn cut_off_at_any_byte_it_makes_the_store_up_to_there() {
    let scene = Scene::new(first_seed("cut_off_at_any_byte"), CALLS).synced();
    for end in scene.begins[0]..scene.bytes.len() {
        let entries = scene.whole_before(end);
        let replayed = check_prefix(&scene.bytes[..end], &scene, entries);
        match replayed.cut {
            Some(cut) => assert!(cut.torn && cut.whole == 0 && cut.after == replayed.last),
            None => assert_eq!(end, scene.begins[entries]),
        }
    }
}

/// What is not noted to have been synced is written anew where the journal goes on: all from the first entry after those that are.
#[test]
fn what_was_synced_is_known_to_the_byte() {
    let seed = first_seed("what_was_synced_is_known_to_the_byte");
    let whole = Scene::new(seed, CALLS);
    let (_, found) = replayed(&whole.bytes).unwrap();
    assert_eq!(found.noted_bytes(&input(&whole.bytes)).unwrap(), 0);
    for synced in [1, 40, CALLS as usize] {
        let mut note = Vec::new();
        let number = HEADER.first - 1 + synced as u64;
        encode(&Content::Synced, number, &mut note);
        seal(&mut note, HEADER.salt);
        for at in synced..=whole.calls() {
            let mut bytes = whole.bytes.clone();
            bytes.splice(whole.begins[at]..whole.begins[at], note.clone());
            let (_, found) = replayed(&bytes).unwrap();
            let (end, noted) = (whole.begins[synced], found.noted_bytes(&input(&bytes)));
            assert_eq!(noted.unwrap() as usize, end, "{synced} noted after {at}");
        }
    }
}

#[test]
fn a_damaged_byte_in_what_was_synced_is_an_error() {
    let seed = first_seed("a_damaged_byte_in_what_was_synced");
    let (scene, mut random) = (Scene::new(seed, CALLS).synced(), Random::new(seed));
    let end = scene.begins[scene.calls()];
    for at in scene.begins[0]..end {
        let mut bytes = scene.bytes.clone();
        bytes[at] ^= 1 << random.below(8);
        check_damaged(&bytes, &scene, at);
    }
    // in the note itself nothing is lost
    for at in end..scene.bytes.len() {
        let mut bytes = scene.bytes.clone();
        bytes[at] ^= 1 << random.below(8);
        check_prefix(&bytes, &scene, scene.calls());
    }
}

/// Checks that a journal which is damaged at a byte is an error at that byte's entry.
fn check_damaged(bytes: &[u8], scene: &Scene, at: usize) {
    let whole = scene.whole_before(at);
    let error = replayed(bytes).unwrap_err();
    assert_eq!(error.kind, JournalErrorKind::Damaged);
    assert_eq!(error.offset, scene.begins[whole] as u64);
    assert_eq!(error.entry, HEADER.first + whole as u64);
}

/// A power cut may leave anything of it.
#[test]
fn a_damaged_byte_in_what_was_not_synced_is_cut_off() {
    let seed = first_seed("a_damaged_byte_in_what_was_not_synced");
    let (scene, mut random) = (Scene::new(seed, CALLS), Random::new(seed));
    for at in scene.begins[0]..scene.bytes.len() {
        let mut bytes = scene.bytes.clone();
        bytes[at] ^= 1 << random.below(8);
        let whole = scene.whole_before(at);
        let cut = check_prefix(&bytes, &scene, whole).cut.unwrap();
        assert_eq!(cut.offset, scene.begins[whole] as u64);
        assert_eq!(cut.whole, (scene.calls() - whole - 1) as u64);
    }
}

#[test]
fn an_inserted_or_a_missing_byte_is_damage_too() {
    let seed = first_seed("an_inserted_or_a_missing_byte");
    let (scene, mut random) = (Scene::new(seed, CALLS).synced(), Random::new(seed));
    for at in scene.begins[0]..scene.begins[scene.calls()] {
        let mut bytes = scene.bytes.clone();
        bytes.insert(at, random.next() as u8);
        check_changed(&bytes, &scene);
        let mut bytes = scene.bytes.clone();
        bytes.remove(at);
        check_changed(&bytes, &scene);
    }
}

/// Checks that a journal which has a byte more or less is an error where it first differs; in the note nothing is lost.
fn check_changed(bytes: &[u8], scene: &Scene) {
    let same = bytes.iter().zip(&scene.bytes).take_while(|(a, b)| a == b);
    let at = same.count();
    if at < scene.begins[scene.calls()] {
        check_damaged(bytes, scene, at);
    } else {
        check_prefix(bytes, scene, scene.calls());
    }
}

/// Blocks of what was written after the last sync may each be on the disk or not.
#[test]
fn a_power_cut_loses_nothing_that_was_synced() {
    let first = first_seed("a_power_cut_loses_nothing_that_was_synced");
    for seed in first..first + 200 {
        let mut random = Random::new(seed);
        let scene = Scene::new(seed, 60);
        let synced = random.below(61) as usize;
        let mut bytes = scene.bytes.clone();
        let from = scene.begins[synced];
        // the note of that sync may come after any entry, and may be lost as well
        let mut note = Vec::new();
        let number = HEADER.first - 1 + synced as u64;
        encode(&Content::Synced, number, &mut note);
        seal(&mut note, HEADER.salt);
        let behind = scene.begins[synced + random.below(61 - synced as u64) as usize];
        bytes.splice(behind..behind, note);
        for block in bytes[from..].chunks_mut(64) {
            if random.one_in(8) {
                block.fill(0);
            }
        }
        let (store, replayed) = replayed(&bytes).unwrap_or_else(|e| panic!("PIT_SEED={seed}: {e}"));
        let entries = replayed.entries() as usize;
        assert!(entries >= synced, "PIT_SEED={seed}");
        assert!(store == scene.stores[entries], "PIT_SEED={seed}");
    }
}

/// A journal that another process is writing: what is read of it is at first so much, and all of it later.
struct InWork {
    now: Vec<u8>,
    later: Vec<u8>,
    reads: Cell<usize>,
}

impl ReadAt for InWork {
    fn read_at(&self, to: &mut [u8], place: u64) -> io::Result<usize> {
        let reads = self.reads.replace(self.reads.get() + 1);
        // the header, and the entries
        let bytes = if reads < 2 { &self.now } else { &self.later };
        bytes.read_at(to, place)
    }
}

/// What is behind an entry that was not whole when it was read may be newer, and say that it was synced.
#[test]
fn an_entry_that_becomes_whole_while_the_journal_is_read_is_not_damaged() {
    let scene = Scene::new(first_seed("becomes_whole"), 40).synced();
    for end in (scene.begins[0]..scene.begins[40]).step_by(37) {
        let mut now = scene.bytes.clone();
        now[end..].fill(0);
        let in_work = InWork {
            now,
            later: scene.bytes.clone(),
            reads: Cell::new(0),
        };
        let input = Input::of(Box::new(in_work), scene.bytes.len() as u64).unwrap();
        let mut store = empty_store();
        let found = replay(&input, &HEADER, &mut store).unwrap();
        assert_eq!((found.entries(), found.cut), (40, None));
        assert!(store == scene.stores[40]);
    }
}

/// A journal that says that it has ended has nothing behind that; and where what stands before it is damaged, it has not been cut off.
#[test]
fn a_journal_that_has_ended_goes_no_further() {
    let scene = Scene::new(5, 10).synced();
    let note = |number: u64| {
        let mut note = Vec::new();
        encode(&Content::Ended, number, &mut note);
        seal(&mut note, HEADER.salt);
        note
    };
    let ended = [&scene.bytes[..], &note(scene.last())].concat();
    let (_, found) = replayed(&ended).unwrap();
    assert!(found.ended && found.cut.is_none());
    assert_eq!(
        (found.last, found.length),
        (scene.last(), ended.len() as u64)
    );
    for more in [&note(scene.last()), &scene.bytes[scene.begins[10]..]] {
        let error = replayed(&[&ended[..], more].concat()).unwrap_err();
        assert_eq!(error.kind, JournalErrorKind::OutOfTurn(scene.last()));
    }
    let early = [&scene.bytes[..scene.begins[9]], &note(scene.last())].concat();
    let error = replayed(&early).unwrap_err();
    assert_eq!(error.kind, JournalErrorKind::OutOfTurn(scene.last()));
    // any byte, also of the note of the sync before
    for at in scene.begins[0]..scene.bytes.len() {
        let mut damaged = ended.clone();
        damaged[at] ^= 4;
        let error = replayed(&damaged).unwrap_err();
        assert_eq!(error.kind, JournalErrorKind::Damaged, "byte {at}");
    }
}

#[test]
fn whole_entries_left_out_doubled_or_swapped_are_out_of_turn() {
    let scene = Scene::new(5, 10);
    let entry = |k: usize| scene.bytes[scene.begins[k]..scene.begins[k + 1]].to_vec();
    let (begin, end) = (scene.begins[4], scene.begins[5]);
    for (place, found) in [
        (vec![], 6),
        ([entry(4), entry(4)].concat(), 5),
        ([entry(5), entry(4)].concat(), 6),
    ] {
        let mut bytes = scene.bytes.clone();
        bytes.splice(begin..end, place);
        let error = replayed(&bytes).unwrap_err();
        assert_eq!(
            error.kind,
            JournalErrorKind::OutOfTurn(HEADER.first - 1 + found)
        );
    }
}

#[test]
fn a_note_of_what_is_not_there_is_an_error() {
    let scene = Scene::new(5, 10).synced();
    let mut bytes = scene.bytes.clone();
    bytes.drain(scene.begins[9]..scene.begins[10]);
    let error = replayed(&bytes).unwrap_err();
    assert_eq!(error.kind, JournalErrorKind::OutOfTurn(scene.last()));
}

#[test]
fn entries_of_another_journal_or_in_a_page_are_none() {
    let scene = Scene::new(9, 20).synced();
    // the rest of the file is what stood there before, by another salt
    let mut other = scene.bytes[scene.begins[10]..].to_vec();
    seal(&mut other, HEADER.salt + 1);
    let bytes = [&scene.bytes[..scene.begins[10]], &other].concat();
    let cut = check_prefix(&bytes, &scene, 10).cut.unwrap();
    assert_eq!((cut.whole, cut.torn), (0, false));
    // a torn entry whose page is a copy of the journal up to there
    let mut page = scene.bytes[scene.begins[0]..].to_vec();
    page.truncate(4_000);
    let mut bytes = scene.bytes.clone();
    let torn = Content::Call(Call::Put {
        ticket: 1,
        i: 0,
        bytes: &page,
    });
    encode(&torn, scene.last() + 1, &mut bytes);
    bytes.push(0);
    let cut = check_prefix(&bytes, &scene, 20).cut.unwrap();
    assert_eq!((cut.whole, cut.torn), (0, false));
}

#[test]
fn a_call_that_does_not_fit_is_told_in_words() {
    let misfits = [
        (
            Call::Begin { n: 65 },
            ReplayError::Refused(Error::UpdateSize),
            "its BEGIN does not fit the store as it is before it: no ticket given: an update has 1 to 64 pages",
        ),
        (
            Call::Publish { line: 0, minute: 0 },
            ReplayError::NotPublished(Published::Waiting),
            "its PUBLISH does not fit the store as it is before it: no version is due on that line",
        ),
        (
            Call::SetWindows { text: b"x" },
            ReplayError::Refused(Error::WrongWindow),
            "its SETWINDOWS does not fit the store as it is before it: ",
        ),
        (
            Call::Weave { ticket: 1, count: u64::MAX },
            ReplayError::Refused(Error::NoSuchTicket),
            "its WEAVE does not fit the store as it is before it: refused: no such ticket was given",
        ),
    ];
    for (call, why, words) in misfits {
        let mut bytes = HEADER.to_bytes().to_vec();
        encode(&Content::Call(call), HEADER.first, &mut bytes);
        seal(&mut bytes[64..], HEADER.salt);
        let error = replayed(&bytes).unwrap_err();
        let name = call.name();
        assert_eq!(
            error.kind,
            JournalErrorKind::NotReplayed { call: name, why }
        );
        let begin = "journal-3 at byte 64, entry 41: ";
        assert!(error.to_string().starts_with(&format!("{begin}{words}")));
    }
}
