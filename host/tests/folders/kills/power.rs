//! What a power cut leaves of a folder: all that was synced, and any part of what was written after that.

use crate::folder::Folder;
use crate::random::Random;
use crate::support::entries::{ahead, entries, first_entry, Entry, HEADER};
use std::fs;
use std::path::Path;

/// Cuts the power of a folder that no process has open. All entries up to `synced` are on the disk, and so are those that the
/// journal says are. Gives the last of them.
pub fn cut(folder: &Folder, synced: u64, random: &mut Random) -> u64 {
    let stores = folder.generations("store-");
    let newest = folder.generations("journal-").last().copied();
    let (store, newest) = match (stores.last(), newest) {
        (Some(store), Some(newest)) => (*store, newest),
        _ => return synced,
    };
    let path = |generation| folder.path(&format!("journal-{generation}"));
    let mut journal = fs::read(path(newest)).unwrap();
    if journal.len() <= HEADER && newest > store {
        if let Some(last) = cut_note(&path(newest - 1), random) {
            return last;
        }
        // the one before it is synced as far as this one has a header; else it is the last
        let is_whole = journal.len() == HEADER;
        let length = random.below(journal.len() as u64 + 1);
        let zeros = random.below(2) * random.below(length + 1);
        journal.truncate(length as usize);
        journal[..zeros as usize].fill(0);
        fs::write(path(newest), journal).unwrap();
        if is_whole {
            let before = fs::read(path(newest - 1)).unwrap();
            return entries(&before).last().map_or(synced, |last| last.number);
        }
        return cut_in(folder, newest - 1, synced, random);
    }
    cut_in(folder, newest, synced, random)
}

/// The same where a journal says that it has ended, and the next has no entries yet: the header of that one was synced before, and of
/// the note there may be any part. Gives the last entry; none where it does not say so.
fn cut_note(path: &Path, random: &mut Random) -> Option<u64> {
    let mut journal = fs::read(path).unwrap();
    let note = entries(&journal).last().copied().filter(Entry::is_end)?;
    let (length, zeros) = (random.below(57) as usize, random.below(57) as usize);
    let note_at = note.begin;
    if random.one_in(2) {
        journal[note_at + zeros.min(56)..].fill(0);
    }
    journal.truncate(note_at + length);
    fs::write(path, journal).unwrap();
    Some(note.number)
}

/// The same of one journal, the last with a header.
fn cut_in(folder: &Folder, generation: u64, synced: u64, random: &mut Random) -> u64 {
    let path = folder.path(&format!("journal-{generation}"));
    let mut journal = fs::read(&path).unwrap();
    let all = entries(&journal);
    let noted = all.iter().filter(|entry| !entry.is_call());
    let noted = noted.map(|entry| entry.number).max().unwrap_or(0);
    let synced = synced.max(noted).max(first_entry(&journal) - 1);
    let kept = all.iter().filter(|e| e.is_call() && e.number <= synced);
    let end = kept.map(|entry| entry.end).max().unwrap_or(HEADER);
    lose(&mut journal, end, random);
    fs::write(path, journal).unwrap();
    synced
}

/// Loses some of a journal's bytes from a place on: the end of the file, and parts in between, of which nothing is there, or what was
/// written ahead.
fn lose(journal: &mut Vec<u8>, from: usize, random: &mut Random) {
    let written = entries(journal).last().map_or(HEADER, |last| last.end);
    let some = |random: &mut Random, end: usize| {
        let end = (end + 100).min(journal.len()).max(from);
        from + random.below((end - from) as u64 + 1) as usize
    };
    let (length, begins) = (
        some(random, written),
        [(); 3].map(|()| some(random, written)),
    );
    if random.one_in(2) {
        journal.truncate(length);
    }
    for begin in &begins[..random.below(4) as usize] {
        let end = (begin + random.below(600) as usize).min(journal.len());
        let lost = match random.below(2) {
            0 => vec![0; end.saturating_sub(*begin)],
            _ => ahead(journal, *begin, end.saturating_sub(*begin)),
        };
        journal.splice(*begin.min(&end)..end, lost);
    }
}
