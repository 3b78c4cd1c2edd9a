//! The step program's lines: their form, the program's own limits, and the answers, on top of the model. And one line that
//! only a host has: `SETWINDOWS,` and the text of a list, with its line feeds.

use super::trees::worst;
use super::{Answer, Node, Published, Refused, Store};

/// The program's own limits. What is beyond them, it refuses with 0.
pub const MOST_PAGE_SIZE: u64 = 256;
pub const MOST_PAGE_BYTES: u64 = 32_768;
pub const MOST_NODES: u64 = 2_048;
pub const MOST_UPDATES: u64 = 256;
pub const LONGEST_READ: u64 = 256;
pub const LONGEST_LINE: usize = 600;

/// What the program refuses before the table is asked.
const BEYOND: Refused = Refused(0);

pub enum Step {
    Format([u64; 4]),
    Begin(u64),
    Put(u64, u64, Vec<u8>),
    Weave(u64),
    SetWindows(Vec<u8>),
    Worst(u64, u64),
    On(u64, OnLine),
}

/// A step that names a line, which is its first field.
pub enum OnLine {
    Assign(u64, Option<u64>),
    Publish(u64),
    Branch(u64),
    Read(u64, u64, u64),
    Size(u64),
    Recent,
    Stamp(u64, u64),
}

/// Plain digits, no leading zero, in 64 bits.
fn number(field: &[u8]) -> Option<u64> {
    let plain = field.iter().all(u8::is_ascii_digit);
    let leading_zero = field.len() > 1 && field[0] == b'0';
    if !plain || leading_zero {
        return None;
    }
    std::str::from_utf8(field).ok()?.parse().ok()
}

/// Lowercase hexadecimal, two digits a byte.
fn page_bytes(field: &[u8]) -> Option<Vec<u8>> {
    let digit = |c: &u8| b"0123456789abcdef".iter().position(|d| d == c);
    let pair = |pair: &[u8]| match pair {
        [high, low] => Some((16 * digit(high)? + digit(low)?) as u8),
        _ => None,
    };
    field.chunks(2).map(pair).collect()
}

/// The bytes as a PUT line or a READ answer writes them.
pub fn hexadecimal(bytes: &[u8]) -> String {
    bytes.iter().map(|b| format!("{b:02x}")).collect()
}

/// The step that a line asks for; nothing for a malformed line.
fn step(line: &[u8]) -> Option<Step> {
    if line.len() > LONGEST_LINE {
        return None;
    }
    let fields: Vec<&[u8]> = line.split(|b| *b == b',').collect();
    let step = match fields[..] {
        [b"FORMAT", s, pages, nodes, updates] => {
            Step::Format([number(s)?, number(pages)?, number(nodes)?, number(updates)?])
        }
        [b"BEGIN", n] => Step::Begin(number(n)?),
        [b"PUT", ticket, i, bytes] => Step::Put(number(ticket)?, number(i)?, page_bytes(bytes)?),
        [b"WEAVE", ticket] => Step::Weave(number(ticket)?),
        [b"WORST", r, n] => Step::Worst(number(r)?, number(n)?),
        [word, line, ref rest @ ..] => {
            let on = step_on_a_line(word, rest)?;
            Step::On(number(line)?, on)
        }
        _ => return None,
    };
    Some(step)
}

/// The same of a host's line.
pub fn hosts_step(line: &[u8]) -> Option<Step> {
    match line.strip_prefix(b"SETWINDOWS,") {
        Some(text) => Some(Step::SetWindows(text.to_vec())),
        None => step(line),
    }
}

/// The same of a step that names a line, from its word and the fields after the line.
fn step_on_a_line(word: &[u8], fields: &[&[u8]]) -> Option<OnLine> {
    let numbers: Option<Vec<u64>> = fields.iter().map(|field| number(field)).collect();
    Some(match (word, &numbers?[..]) {
        (b"WRITE", &[ticket, f]) => OnLine::Assign(ticket, Some(f)),
        (b"APPEND", &[ticket]) => OnLine::Assign(ticket, None),
        (b"PUBLISH", &[minute]) => OnLine::Publish(minute),
        (b"BRANCH", &[v]) => OnLine::Branch(v),
        (b"READ", &[v, offset, length]) => OnLine::Read(v, offset, length),
        (b"SIZE", &[v]) => OnLine::Size(v),
        (b"RECENT", []) => OnLine::Recent,
        (b"STAMP", &[v, page]) => OnLine::Stamp(v, page),
        _ => return None,
    })
}

/// Whether the program can keep a store of this form at all.
fn within_limits([page_size, pages, nodes, updates]: [u64; 4]) -> bool {
    page_size <= MOST_PAGE_SIZE
        && u128::from(page_size) * u128::from(pages) <= u128::from(MOST_PAGE_BYTES)
        && nodes <= MOST_NODES
        && updates <= MOST_UPDATES
}

fn node_line(node: Node) -> String {
    let Node {
        version,
        first,
        span,
        numbers: (one, two),
        left,
    } = node;
    format!("node,{version},{first},{span},{one},{two},{left}")
}

/// The READ line: the program lends a buffer of the longest read.
fn read_line(store: &Store, line: u64, v: u64, offset: u64, length: u64) -> Answer<String> {
    if length > LONGEST_READ {
        return Err(BEYOND);
    }
    let mut buffer = [0; LONGEST_READ as usize];
    store.read(line, v, offset, length, &mut buffer)?;
    let bytes = hexadecimal(&buffer[..length as usize]);
    Ok(format!("bytes,{bytes}"))
}

/// The WORST line, for which there need be no store.
fn worst_line(r: u64, n: u64) -> Answer<String> {
    match worst(r, n) {
        0 => Err(BEYOND),
        count => Ok(format!("worst,{count}")),
    }
}

/// A step other than FORMAT and WORST.
fn step_on(store: &mut Store, step: Step) -> Answer<String> {
    Ok(match step {
        Step::Format(_) => unreachable!("FORMAT starts a store"),
        Step::Worst(..) => unreachable!("WORST needs no store"),
        Step::Begin(n) => format!("ticket,{}", store.begin(n)?),
        Step::Put(ticket, i, bytes) => {
            store.put(ticket, i, &bytes)?;
            "put".to_string()
        }
        Step::Weave(ticket) => node_line(store.weave(ticket)?),
        Step::SetWindows(text) => {
            store.set_windows(&text)?;
            "done".to_string()
        }
        Step::On(line, step) => step_on_line(store, line, step)?,
    })
}

/// A step that names a line.
fn step_on_line(store: &mut Store, line: u64, step: OnLine) -> Answer<String> {
    Ok(match step {
        OnLine::Assign(ticket, f) => {
            let (version, nodes) = store.assign(line, ticket, f)?;
            format!("version,{version},{nodes}")
        }
        OnLine::Publish(minute) => match store.publish(line, minute)? {
            Published::Now(version) => format!("published,{version}"),
            Published::Waiting => "waiting".to_string(),
            Published::Held => "held".to_string(),
        },
        OnLine::Branch(v) => format!("line,{}", store.branch(line, v)?),
        OnLine::Read(v, offset, length) => read_line(store, line, v, offset, length)?,
        OnLine::Size(v) => format!("size,{}", store.size(line, v)?),
        OnLine::Recent => format!("recent,{}", store.recent(line)?),
        OnLine::Stamp(v, page) => format!("stamp,{}", store.stamp(line, v, page)?),
    })
}

/// The program between two lines: the store of the last accepted FORMAT.
#[derive(Default)]
pub struct Program {
    pub store: Option<Store>,
}

impl Program {
    /// The answer to a line, both without their line feed.
    pub fn answer(&mut self, line: &[u8]) -> String {
        self.answer_to(step(line))
    }

    /// The answer to a host's line.
    pub fn answer_to_host(&mut self, line: &[u8]) -> String {
        self.answer_to(hosts_step(line))
    }

    fn answer_to(&mut self, step: Option<Step>) -> String {
        let answer = match step {
            None => Err(BEYOND),
            Some(Step::Format(fields)) => self.format(fields),
            Some(Step::Worst(r, n)) => worst_line(r, n),
            Some(step) => match &mut self.store {
                None => Err(BEYOND),
                Some(store) => step_on(store, step),
            },
        };
        answer.unwrap_or_else(|Refused(number)| format!("refused,{number}"))
    }

    fn format(&mut self, fields: [u64; 4]) -> Answer<String> {
        if !within_limits(fields) {
            return Err(BEYOND);
        }
        let [page_size, pages, nodes, updates] = fields;
        self.store = Some(Store::format(page_size, pages, nodes, updates)?);
        Ok("ok".to_string())
    }
}

/// The lines of an input: each ends in a line feed, which the last may lack.
pub fn lines_of(input: &[u8]) -> Vec<&[u8]> {
    let mut lines: Vec<&[u8]> = input.split(|b| *b == b'\n').collect();
    if lines.last() == Some(&&b""[..]) {
        lines.pop();
    }
    lines
}
