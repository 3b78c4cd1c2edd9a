//! What opening cuts off a journal, kept beside it.

use super::files;
use crate::disk::file::plain;
use crate::disk::journal::{Cut, PART};
use std::fs::{self, File};
use std::io;
use std::os::unix::fs::FileExt;
use std::path::{Path, PathBuf};

/// Copies what is to be cut off a journal to a file of its own, where whole entries are in it, and says in which: `journal-G.cut-N`, with
/// the first number that is free. It is on the disk before anything is cut off, and nothing here ever removes it.
pub fn keep(folder: &Path, cut: &mut Cut, mode: u32) -> io::Result<()> {
    if cut.whole == 0 {
        return Ok(());
    }
    let journal = plain::to_read(&files::journal_in(folder, cut.generation))?;
    let (name, path, file) = made_in(folder, cut.generation, mode)?;
    let copied = copy(&journal, cut, &file).and_then(|()| files::sync_folder(folder));
    if copied.is_err() {
        let _ = fs::remove_file(path); // half of it is no use, and nothing was cut off
    }
    copied?;
    cut.kept = Some(name);
    Ok(())
}

/// A new file, by the first name that is free.
fn made_in(folder: &Path, generation: u64, mode: u32) -> io::Result<(String, PathBuf, File)> {
    let mut number: u64 = 1;
    loop {
        let name = format!("journal-{generation}.cut-{number}");
        let path = folder.join(&name);
        if fs::symlink_metadata(&path).is_err() {
            let file = plain::new_file(&path, mode)?;
            return Ok((name, path, file));
        }
        number += 1;
    }
}

/// Copies what is cut off, a part at a time. Parts of zeros, as a sparse file has them, are left out, and read as zeros again.
fn copy(journal: &File, cut: &Cut, to: &File) -> io::Result<()> {
    let (mut part, zeros) = (vec![0; PART], vec![0; PART]);
    let mut place = 0;
    to.set_len(cut.bytes)?;
    while place < cut.bytes {
        let count = (cut.bytes - place).min(PART as u64) as usize;
        journal.read_exact_at(&mut part[..count], cut.offset + place)?;
        if part[..count] != zeros[..count] {
            to.write_all_at(&part[..count], place)?;
        }
        place += count as u64;
    }
    to.sync_all()
}
