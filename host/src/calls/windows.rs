//! A site's windows as text: how it is written, and what is wrong with a text that was refused.

use crate::calls::error::Error;
use crate::calls::ffi::{Window, Windows};
use std::fmt;

/// The last minute of the week.
const LAST: u16 = 10_079;
/// A wrong line is shown up to so many characters.
const SHOWN: usize = 40;

impl Windows {
    /// The windows in use, in the order of their text: those before the first place with equal ends, as the store reads them.
    pub fn list(&self) -> &[Window] {
        let unused = self.places.iter().position(|place| place.from == place.to);
        &self.places[..unused.unwrap_or(self.places.len())]
    }

    /// Whether SETWINDOWS can leave these: minutes of the week in the places that are used, and zeros in those after them.
    pub(crate) fn are_set(&self) -> bool {
        let (used, unused) = self.places.split_at(self.list().len());
        let is_window = |w: &Window| w.from <= LAST && w.to <= LAST;
        used.iter().all(is_window) && unused.iter().all(|w| *w == Window::default())
    }
}

/// The places up to the last one that is not zeros.
impl fmt::Debug for Windows {
    fn fmt(&self, f: &mut fmt::Formatter<'_>) -> fmt::Result {
        let last = self.places.iter().rposition(|w| *w != Window::default());
        let places = &self.places[..last.map_or(0, |last| last + 1)];
        f.debug_list().entries(places).finish()
    }
}

/// `from,to`, as in the text of a list.
impl fmt::Display for Window {
    fn fmt(&self, f: &mut fmt::Formatter<'_>) -> fmt::Result {
        write!(f, "{},{}", self.from, self.to)
    }
}

/// The text of the list, for [`set_windows`](crate::Store::set_windows): a line each.
impl fmt::Display for Windows {
    fn fmt(&self, f: &mut fmt::Formatter<'_>) -> fmt::Result {
        self.list()
            .iter()
            .try_for_each(|window| writeln!(f, "{window}"))
    }
}

/// Why SETWINDOWS refused a text: the refusal and, where a line is wrong, the first such line. The windows are as they were.
///
/// ```
/// use pit_host::{Error, Limits, Store, Why};
/// let mut store = Store::format(Limits::new(16, 4, 8, 2)).unwrap();
/// let refused = store.set_windows("600,660\n600,10080\n").unwrap_err();
/// assert_eq!(refused.error(), Error::WrongWindow);
/// let wrong = refused.wrong().unwrap();
/// assert_eq!((wrong.number, wrong.text.as_str(), wrong.why), (2, "600,10080", Why::OutOfRange));
///
/// let refused = store.set_windows("600,660\n".repeat(33)).unwrap_err();
/// assert_eq!(refused.error(), Error::TooManyWindows);
/// assert_eq!(refused.to_string(), "no windows set: the text has 33 lines, and a site has at most 32 windows");
/// ```
#[derive(Clone, Debug, PartialEq, Eq)]
pub struct WindowsError {
    error: Error,
    wrong: Option<WrongLine>,
    lines: u64,
}

/// The first wrong line of a text of windows.
#[derive(Clone, Debug, PartialEq, Eq)]
#[non_exhaustive]
pub struct WrongLine {
    /// Which line of the text, from 1.
    pub number: u64,
    /// The line, without its line feed; of a long one the beginning. Bytes that are no text are replaced.
    pub text: String,
    /// What is wrong with it.
    pub why: Why,
}

/// What is wrong with a line of a text of windows.
#[derive(Clone, Copy, Debug, PartialEq, Eq, Hash)]
#[non_exhaustive]
pub enum Why {
    /// It is empty.
    Empty,
    /// It ends in a carriage return and a line feed.
    CarriageReturn,
    /// It is not two numbers with one comma between them.
    NotTwoNumbers,
    /// A number has something other than digits: a sign, a space, a letter.
    NotDigits,
    /// A number begins with a 0 that is not all of it.
    LeadingZero,
    /// A number is above 10,079.
    OutOfRange,
    /// `from` and `to` are equal.
    EqualEnds,
    /// It is the last line, and does not end in a line feed.
    NoLineFeed,
}

impl WindowsError {
    /// What is wrong with a text that the proved call refused with this error.
    pub(crate) fn of(error: Error, text: &[u8]) -> WindowsError {
        let wrong = match error {
            Error::WrongWindow => first_wrong(text),
            _ => None,
        };
        let lines = lines_of(text).count() as u64;
        WindowsError {
            error,
            wrong,
            lines,
        }
    }

    /// The refusal.
    pub fn error(&self) -> Error {
        self.error
    }

    /// The first wrong line, where the refusal is [`Error::WrongWindow`].
    pub fn wrong(&self) -> Option<&WrongLine> {
        self.wrong.as_ref()
    }

    /// How many lines the text has.
    pub fn lines(&self) -> u64 {
        self.lines
    }
}

impl fmt::Display for WindowsError {
    fn fmt(&self, f: &mut fmt::Formatter<'_>) -> fmt::Result {
        let lines = self.lines;
        match (self.error, &self.wrong) {
            (_, Some(wrong)) => write!(f, "no windows set: {wrong}"),
            (Error::TooManyWindows, _) => write!(
                f,
                "no windows set: the text has {lines} lines, and a site has at most 32 windows"
            ),
            (error, _) => error.fmt(f),
        }
    }
}

impl std::error::Error for WindowsError {}

impl From<WindowsError> for Error {
    fn from(refused: WindowsError) -> Error {
        refused.error
    }
}

/// A refusal that is of no line of a text.
impl From<Error> for WindowsError {
    fn from(error: Error) -> WindowsError {
        WindowsError::of(error, &[])
    }
}

impl fmt::Display for WrongLine {
    fn fmt(&self, f: &mut fmt::Formatter<'_>) -> fmt::Result {
        let WrongLine { number, text, why } = self;
        write!(f, "line {number}, {text:?}: {why}")
    }
}

impl fmt::Display for Why {
    fn fmt(&self, f: &mut fmt::Formatter<'_>) -> fmt::Result {
        f.write_str(match self {
            Why::Empty => "it is empty",
            Why::CarriageReturn => "a carriage return stands before its line feed",
            Why::NotTwoNumbers => "it is not two numbers with one comma between them",
            Why::NotDigits => "a number is written in digits alone, with no sign or space",
            Why::LeadingZero => "a number does not begin with a 0, unless it is 0",
            Why::OutOfRange => "a week's minutes are 0 to 10,079",
            Why::EqualEnds => "from and to are equal",
            Why::NoLineFeed => "the last line does not end in a line feed",
        })
    }
}

/// The lines of a text, each with the line feed that it ends in. After the last line feed there is none.
fn lines_of(text: &[u8]) -> impl Iterator<Item = &[u8]> {
    text.split_inclusive(|byte| *byte == b'\n')
}

/// The first line that is no window.
fn first_wrong(text: &[u8]) -> Option<WrongLine> {
    (1..).zip(lines_of(text)).find_map(|(number, line)| {
        let why = why_wrong(line)?;
        let text = shown(line.strip_suffix(b"\n").unwrap_or(line));
        Some(WrongLine { number, text, why })
    })
}

/// What is wrong with a line, if anything is.
fn why_wrong(line: &[u8]) -> Option<Why> {
    let (line, ended) = match line.strip_suffix(b"\n") {
        Some(line) => (line, true),
        None => (line, false),
    };
    match ends_of(line) {
        Err(why) => Some(why),
        Ok((from, to)) if from == to => Some(Why::EqualEnds),
        Ok(_) if !ended => Some(Why::NoLineFeed),
        Ok(_) => None,
    }
}

/// The two minutes of a line without its line feed.
fn ends_of(line: &[u8]) -> Result<(u64, u64), Why> {
    if line.is_empty() {
        return Err(Why::Empty);
    }
    if line.ends_with(b"\r") {
        return Err(Why::CarriageReturn);
    }
    let mut fields = line.split(|byte| *byte == b',');
    match (fields.next(), fields.next(), fields.next()) {
        (Some(from), Some(to), None) => Ok((minute_in(from)?, minute_in(to)?)),
        _ => Err(Why::NotTwoNumbers),
    }
}

/// The minute that a field is.
fn minute_in(field: &[u8]) -> Result<u64, Why> {
    let digit = |byte: &u8| u64::from(byte - b'0');
    match field {
        [] => Err(Why::NotTwoNumbers),
        _ if !field.iter().all(u8::is_ascii_digit) => Err(Why::NotDigits),
        [b'0', _, ..] => Err(Why::LeadingZero),
        _ => {
            let append = |number: u64, byte| number.saturating_mul(10).saturating_add(digit(byte));
            let minute = field.iter().fold(0, append);
            if minute > u64::from(LAST) {
                return Err(Why::OutOfRange);
            }
            Ok(minute)
        }
    }
}

/// A line to be shown: its beginning where it is long, and what stands for bytes that are no text.
fn shown(line: &[u8]) -> String {
    // no character has more than four bytes, so none that is shown is cut
    let beginning = String::from_utf8_lossy(&line[..line.len().min(4 * (SHOWN + 1))]);
    match beginning.char_indices().nth(SHOWN) {
        Some((end, _)) => format!("{}…", &beginning[..end]),
        None => beginning.into_owned(),
    }
}

#[cfg(test)]
mod tests {
    use super::*;
    use crate::calls::areas::Limits;
    use crate::calls::store::Store;
    use crate::disk::journal::tests::random::Random;

    fn minute(random: &mut Random) -> u64 {
        let most = random.pick(&[10, 100, 1_000, 10_080]);
        random.below(most)
    }

    /// A list of up to 35 windows, now and then with equal ends.
    fn list(random: &mut Random) -> Vec<u8> {
        let lines = match random.below(3) {
            0 => 30 + random.below(6),
            _ => random.below(4),
        };
        let lines = (0..lines).map(|_| format!("{},{}\n", minute(random), minute(random)));
        lines.collect::<String>().into_bytes()
    }

    /// Takes a byte away, puts one in, or changes one; or ends the text there.
    fn change(random: &mut Random, text: &mut Vec<u8>) {
        let byte = random.pick(b"0123456789,,\n\n\r -+x\0\xff");
        let at = random.below(text.len() as u64 + 1) as usize;
        match random.below(8) {
            0 => text.truncate(at),
            1..=3 => text.insert(at, byte),
            _ if at == text.len() => text.push(byte),
            4 | 5 => drop(text.remove(at)),
            _ => text[at] = byte,
        }
    }

    /// The proved call refuses with 23 just where a wrong line is found, and with 24 just where there are then too many. What it
    /// accepts is written as it was read.
    #[test]
    fn a_wrong_line_is_found_just_where_the_call_refuses() {
        let mut store = Store::format(Limits::new(16, 4, 8, 2)).expect("limits in range");
        let (mut counts, mut random) = ([0; 3], Random::new(20_260_403));
        for _ in 0..30_000 {
            let mut text = list(&mut random);
            (0..random.below(3)).for_each(|_| change(&mut random, &mut text));
            let before = store.windows();
            let (wrong, lines) = (first_wrong(&text), lines_of(&text).count());
            match store.set_windows(&text).map_err(|refused| refused.error) {
                Ok(()) => {
                    assert!(wrong.is_none() && lines <= 32 && store.windows().are_set());
                    assert_eq!(store.windows().to_string().into_bytes(), text);
                    counts[0] += 1;
                }
                Err(error) => {
                    let due = match wrong {
                        Some(_) => Error::WrongWindow,
                        None => Error::TooManyWindows,
                    };
                    assert_eq!((error, store.windows()), (due, before), "{text:?}");
                    counts[usize::from(due == Error::WrongWindow) + 1] += 1;
                }
            }
        }
        assert!(counts.iter().all(|count| *count > 1_000), "{counts:?}");
    }
}
