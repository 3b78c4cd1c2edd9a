//! `pit dump`: a page's bytes.

use crate::words::Page;
use crate::Fault;
use pit_host::{inspect, Error, Shared};
use std::fmt::Write;
use std::path::Path;

/// How many bytes a line of text shows.
const A_LINE: usize = 16;

pub fn dump(folder: &Path, asked: &Page) -> Result<Vec<u8>, Fault> {
    let store = inspect(folder)?.store;
    let show = |bytes: &[u8]| match asked.hex {
        true => hex(bytes).into_bytes(),
        false => bytes.to_vec(),
    };
    let shown = store.with_view(asked.line, asked.version, asked.page, show);
    shown.map_err(|error| match error {
        Error::NotPublished if was_published(&store, asked) => {
            "the version was not kept when the store was rebuilt".into()
        }
        other => other.into(),
    })
}

/// Whether a version that is not there was published once.
fn was_published(store: &Shared, asked: &Page) -> bool {
    let recent = store.recent(asked.line);
    recent.map_or(false, |recent| asked.version <= recent)
}

/// Lines with the place of the first byte, the bytes, and what of them is text.
fn hex(bytes: &[u8]) -> String {
    let mut text = String::new();
    for (line, bytes) in bytes.chunks(A_LINE).enumerate() {
        let digits: Vec<String> = bytes.iter().map(|byte| format!("{byte:02x}")).collect();
        let letter = |byte: &u8| match byte {
            b' '..=b'~' => char::from(*byte),
            _ => '.',
        };
        let letters: String = bytes.iter().map(letter).collect();
        let at = line * A_LINE;
        let _ = writeln!(text, "{at:08x}  {}  {letters}", digits.join(" ")); // into memory
    }
    text
}
