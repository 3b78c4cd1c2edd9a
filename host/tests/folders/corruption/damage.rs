//! Damage to the files of a folder, of every kind: to bytes, to entries of a journal, and to whole files.

use crate::random::Random;
use crate::support::entries::{entries, Entry, HEADER};
use std::collections::BTreeMap;

/// Files by their names.
pub type Files = BTreeMap<String, Vec<u8>>;

/// Other files to take something from: the folder's own of earlier, and those of another folder.
pub struct Sources<'a> {
    pub past: &'a [Files],
    pub other: &'a Files,
}

/// Damages files in one way.
pub fn corrupt(files: &mut Files, sources: &Sources<'_>, random: &mut Random) {
    let names: Vec<String> = files.keys().cloned().collect();
    if names.is_empty() {
        return;
    }
    let name = &names[random.below(names.len() as u64) as usize];
    match random.below(4) {
        0 => corrupt_names(files, name, sources, random),
        1 if name.starts_with("journal-") => {
            let from = some_file(sources, "journal-", random);
            let bytes = files.get_mut(name).unwrap();
            *bytes = with_entries_changed(bytes, &from, random);
        }
        _ => corrupt_bytes(files.get_mut(name).unwrap(), random),
    }
}

/// A range of some bytes: most often a few, and now and then a block of a disk.
fn range(bytes: &[u8], random: &mut Random) -> std::ops::Range<usize> {
    let length = bytes.len() as u64;
    if random.one_in(5) {
        let begin = (random.below(length + 1) / 512 * 512) as usize;
        return begin..(begin + 512).min(bytes.len());
    }
    let begin = random.below(length + 1);
    let most = random.pick(&[1, 8, 64, 500]);
    let end = (begin + 1 + random.below(most)).min(length);
    begin as usize..end as usize
}

fn corrupt_bytes(bytes: &mut Vec<u8>, random: &mut Random) {
    if bytes.is_empty() {
        return;
    }
    let at = random.below(bytes.len() as u64) as usize;
    let one = range(bytes, random);
    let part = bytes[one.clone()].to_vec();
    match random.below(13) {
        0..=2 => bytes[at] ^= 1 << random.below(8),
        3 => bytes[at] = random.next() as u8,
        4 => bytes[one].fill(0),
        5 => bytes[one].fill(0xff),
        6 => bytes[one].copy_from_slice(&random.bytes(part.len())),
        7 => bytes.truncate(at),
        8 => drop(bytes.drain(one)),
        9 => drop(bytes.splice(at..at, random.bytes(part.len()))),
        10 => drop(bytes.splice(at..at, part)), // once more, elsewhere
        11 => {
            let to = at.min(bytes.len() - part.len());
            bytes.copy_within(one, to);
        }
        _ => swap(bytes, one, at),
    }
}

/// Exchanges a range with another of its length, where they do not meet.
fn swap(bytes: &mut [u8], one: std::ops::Range<usize>, at: usize) {
    let length = one.len();
    let (first, second) = (one.start.min(at), one.start.max(at));
    if first + length <= second && second + length <= bytes.len() {
        let (front, back) = bytes.split_at_mut(second);
        front[first..first + length].swap_with_slice(&mut back[..length]);
    }
}

/// The bytes of some file with such a name that is not in the folder.
fn some_file(sources: &Sources<'_>, of: &str, random: &mut Random) -> Vec<u8> {
    let past = sources.past.iter().flatten();
    let all = past
        .chain(sources.other)
        .filter(|file| file.0.starts_with(of));
    let all: Vec<&Vec<u8>> = all.map(|file| file.1).collect();
    match all.len() as u64 {
        0 => Vec::new(),
        count => all[random.below(count) as usize].clone(),
    }
}

/// A journal with entries taken out, doubled, exchanged, or replaced by those of another.
fn with_entries_changed(journal: &[u8], from: &[u8], random: &mut Random) -> Vec<u8> {
    let slices = |bytes: &[u8]| -> Vec<Vec<u8>> {
        let slice = |entry: &Entry| bytes[entry.begin..entry.end].to_vec();
        entries(bytes).iter().map(slice).collect()
    };
    let (mut all, others) = (slices(journal), slices(from));
    let header = &journal[..HEADER.min(journal.len())];
    if all.is_empty() {
        return [header, &others.concat()].concat();
    }
    let some = |of: &[Vec<u8>], random: &mut Random| random.below(of.len() as u64) as usize;
    let (at, to) = (some(&all, random), some(&all, random));
    match random.below(7) {
        0 => drop(all.remove(at)),
        1 => all.insert(to, all[at].clone()),
        2 => all.swap(at, to),
        3 => drop(all.drain(at.min(to)..)),
        4 if !others.is_empty() => all[at] = others[some(&others, random)].clone(),
        5 => all.extend(others),
        _ if from.len() >= HEADER => return [&from[..HEADER], &all.concat()].concat(),
        _ => all.reverse(),
    }
    [header, &all.concat()].concat()
}

/// Removes, renames or replaces a file, or puts one beside it.
fn corrupt_names(files: &mut Files, name: &str, sources: &Sources<'_>, random: &mut Random) {
    let (of, generation) = name.split_once('-').unwrap_or((name, "0"));
    let generation: u64 = generation.parse().unwrap_or(0);
    let another = some_file(sources, of, random);
    match random.below(7) {
        0 => drop(files.remove(name)),
        1 => {
            let bytes = files.remove(name).unwrap();
            files.insert(format!("{of}-{}", generation + 1), bytes);
        }
        2 => {
            let bytes = files[name].clone();
            files.insert(format!("{of}-{}", generation + 1), bytes);
        }
        3 | 4 => drop(files.insert(name.to_string(), another)),
        5 if !sources.past.is_empty() => {
            let kept = files.remove(name).unwrap();
            *files = sources.past[random.below(sources.past.len() as u64) as usize].clone();
            files.insert(name.to_string(), kept);
        }
        _ => drop(files.insert(name.to_string(), Vec::new())),
    }
}
