//! Blast windows, from document 02 alone: which minutes of the week are inside one, and the text of a list.
#![allow(dead_code)] // each test program uses some of it

/// How many minutes a week has. They count from 0.
pub const WEEK: u64 = 10_080;
/// A list has at most this many windows.
pub const MOST_WINDOWS: usize = 32;

/// A weekly window: `from` is inside and `to` is outside. `from` above `to` runs over the week's end.
#[derive(Clone, Copy, Debug, PartialEq)]
pub struct Window {
    pub from: u64,
    pub to: u64,
}

impl Window {
    pub fn has(&self, minute: u64) -> bool {
        if self.from <= self.to {
            (self.from..self.to).contains(&minute)
        } else {
            !(self.to..self.from).contains(&minute)
        }
    }
}

pub fn inside(windows: &[Window], minute: u64) -> bool {
    windows.iter().any(|window| window.has(minute))
}

/// A number as the step program has it: printed again, it is the same text.
fn number(field: &[u8]) -> Option<u64> {
    let text = std::str::from_utf8(field).ok()?;
    let number: u64 = text.parse().ok()?;
    (number.to_string() == text).then_some(number)
}

/// The window that a line is, without its line feed; nothing where it is malformed, out of range or has equal ends.
fn window(line: &[u8]) -> Option<Window> {
    let fields: Vec<&[u8]> = line.split(|b| *b == b',').collect();
    let (from, to) = match fields[..] {
        [from, to] => (number(from)?, number(to)?),
        _ => return None,
    };
    (from < WEEK && to < WEEK && from != to).then_some(Window { from, to })
}

/// The windows of a list's text, of which each line ends in a line feed; or the number of the row that refuses it.
pub fn listed(text: &[u8]) -> Result<Vec<Window>, u64> {
    let mut lines: Vec<&[u8]> = text.split(|b| *b == b'\n').collect();
    let unended = lines.pop().unwrap_or_default();
    let windows: Option<Vec<Window>> = lines.into_iter().map(window).collect();
    match windows {
        Some(windows) if unended.is_empty() && windows.len() <= MOST_WINDOWS => Ok(windows),
        Some(_) if unended.is_empty() => Err(24),
        _ => Err(23),
    }
}
