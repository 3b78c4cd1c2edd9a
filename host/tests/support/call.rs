//! A call with all that it is given, what it answers, and how it is made: on a store of one's own, and on a handle. Each call is here
//! once.

use pit_host::{
    Assigned, ByteOffset, Durable, Error, Failure, Handle, Limits, Line, LineVersion, Log, Minute,
    Node, PageIndex, Published, Storage, Store, Ticket, Version,
};
use std::time::Duration;

/// The line comes first, and the minute last.
#[derive(Clone, Debug, PartialEq)]
pub enum Call {
    Begin(u64),
    Put(Ticket, u64, Vec<u8>),
    Write(Line, Ticket, PageIndex),
    Append(Line, Ticket),
    Weave(Ticket),
    Publish(Line, Minute),
    Branch(Line, Version),
    SetWindows(Vec<u8>),
    /// So many bytes, into the front of a buffer with so much room.
    Read(Line, Version, ByteOffset, u64, usize),
    Size(Line, Version),
    Recent(Line),
    Stamp(Line, Version, PageIndex),
    View(Line, Version, PageIndex),
    // What a handle makes of several calls: the minute is its clock's.
    Update(Update),
    Finish(Ticket, Minute),
    Rebuild(Limits, Vec<(Line, Version)>, Vec<Ticket>),
    Checkpoint,
    Sync,
    /// Over areas that are there already.
    Format(Limits),
}

/// A whole update in one call; at the line's end, where it says no page.
#[derive(Clone, Debug, PartialEq)]
pub struct Update {
    pub line: Line,
    pub at: Option<PageIndex>,
    pub pages: Vec<Vec<u8>>,
    pub minute: Minute,
}

/// What a call answers where it is not refused.
#[derive(Clone, Debug, PartialEq)]
pub enum Answer {
    Done,
    Ticket(Ticket),
    Assigned(Assigned),
    Node(Node),
    Published(Published),
    Line(Line),
    Version(Version),
    Size(u64),
    Bytes(Vec<u8>),
    Kept(Vec<(Line, Version)>),
}

/// What a buffer has before READ.
pub const UNFILLED: u8 = 0xee;

/// The calls that a store of one's own and a handle have alike.
macro_rules! made {
    ($store:expr, $call:expr) => {
        match $call {
            Call::Begin(n) => Answer::Ticket($store.begin(*n)?),
            Call::Put(ticket, i, bytes) => {
                $store.put(*ticket, *i, bytes)?;
                Answer::Done
            }
            Call::Write(line, ticket, first) => {
                Answer::Assigned($store.write(*line, *ticket, *first)?)
            }
            Call::Append(line, ticket) => Answer::Assigned($store.append(*line, *ticket)?),
            Call::Weave(ticket) => Answer::Node($store.weave(*ticket)?),
            Call::Publish(line, minute) => Answer::Published($store.publish(*line, *minute)?),
            Call::Branch(line, version) => Answer::Line($store.branch(*line, *version)?),
            Call::SetWindows(text) => {
                $store.set_windows(text)?;
                Answer::Done
            }
            Call::Size(line, version) => Answer::Size($store.size(*line, *version)?),
            Call::Recent(line) => Answer::Version($store.recent(*line)?),
            Call::Stamp(line, version, page) => {
                Answer::Version($store.stamp(*line, *version, *page)?)
            }
            other => unreachable!("{other:?} is made otherwise"),
        }
    };
}

/// The minutes of a week.
pub const WEEK: u64 = 10_080;

/// Makes a call on a store of one's own. What a handle makes of several calls is made by these, one by one, after a look at the clock.
pub fn make<A: Storage + Clone>(store: &mut Store<A>, call: &Call) -> Result<Answer, Error> {
    Ok(match call {
        Call::Update(Update { minute, .. }) | Call::Finish(_, minute) if minute.0 >= WEEK => {
            return Err(Error::NoSuchMinute);
        }
        Call::Update(update) => {
            let mut tried = store.clone();
            let version = one_by_one(&mut tried, update)?;
            *store = tried;
            Answer::Version(version)
        }
        call => return make_one(store, call),
    })
}

/// Makes a call that is none of several, except for FINISH.
pub fn make_one<A: Storage>(store: &mut Store<A>, call: &Call) -> Result<Answer, Error> {
    Ok(match call {
        Call::Read(line, version, offset, len, room) => {
            let buffer = &mut vec![UNFILLED; *room];
            let done = store.read_front(*line, *version, *offset, *len, buffer);
            Answer::Bytes(filled(buffer, done, *len as usize)?)
        }
        Call::View(line, version, page) => {
            Answer::Bytes(store.view(*line, *version, *page)?.to_vec())
        }
        Call::Finish(ticket, minute) => Answer::Version(finish(store, *ticket, *minute)?),
        call => made!(store, call),
    })
}

/// Makes a call on a handle. A checkpoint and a sync are nothing to a store in memory.
pub fn make_on<L: Log>(store: &Handle<L>, call: &Call) -> Result<Answer, Failure>
where
    Failure: From<L::Failure> + From<L::WindowsFailure>,
{
    Ok(match call {
        Call::Read(line, version, offset, len, room) => {
            assert_eq!(*len, *room as u64, "a handle fills the whole buffer");
            let buffer = &mut vec![UNFILLED; *room + 5]; // which stay as they are
            let done = store.read(*line, *version, *offset, &mut buffer[..*room]);
            Answer::Bytes(filled(buffer, done, *room)?)
        }
        Call::View(line, version, page) => {
            Answer::Bytes(store.with_view(*line, *version, *page, <[u8]>::to_vec)?)
        }
        Call::Update(update) => Answer::Version(update_on(store, update)?),
        Call::Finish(ticket, minute) => {
            set_clock(store, *minute);
            Answer::Version(store.finish(*ticket)?)
        }
        Call::Rebuild(limits, versions, given_up) => {
            let rebuilt = store.rebuild_without(*limits, versions, given_up, Duration::ZERO)?;
            Answer::Kept(rebuilt.versions)
        }
        Call::Checkpoint | Call::Sync => Answer::Done,
        call => made!(store, call),
    })
}

/// Makes a call on a store in a folder.
pub fn make_durable(store: &Durable, call: &Call) -> Result<Answer, Failure> {
    match call {
        Call::Checkpoint => store.checkpoint().map(|_| Answer::Done),
        Call::Sync => store.sync().map(|()| Answer::Done),
        call => make_on(store, call),
    }
}

fn set_clock<L: Log>(store: &Handle<L>, minute: Minute) {
    store.set_clock(move || minute);
}

/// A buffer after READ: filled up to its length and no further; where the call was refused, not at all.
fn filled(buffer: &[u8], done: Result<(), Error>, len: usize) -> Result<Vec<u8>, Error> {
    let filled = if done.is_ok() { len } else { 0 };
    let rest = buffer[filled..].iter();
    assert!(rest.copied().all(|byte| byte == UNFILLED), "{done:?}");
    done.map(|()| buffer[..filled].to_vec())
}

/// `update`, or `append_pages` where there is no first page.
fn update_on<L: Log>(store: &Handle<L>, update: &Update) -> Result<Version, L::Failure> {
    set_clock(store, update.minute);
    let pages = update.pages.iter().map(Vec::as_slice);
    let pages: Vec<&[u8]> = pages.collect();
    match update.at {
        Some(at) => store.update(update.line, at, &pages),
        None => store.append_pages(update.line, &pages),
    }
}

/// An update up to its version, in single calls.
pub fn assigned<A: Storage>(
    store: &mut Store<A>,
    update: &Update,
) -> Result<(Ticket, Assigned), Error> {
    let ticket = store.begin(update.pages.len() as u64)?;
    for (i, page) in (0..).zip(&update.pages) {
        store.put(ticket, i, page)?;
    }
    let assigned = match update.at {
        Some(first) => store.write(update.line, ticket, first)?,
        None => store.append(update.line, ticket)?,
    };
    Ok((ticket, assigned))
}

/// A whole update in single calls, the last of which publish what is due.
pub fn one_by_one<A: Storage>(store: &mut Store<A>, update: &Update) -> Result<Version, Error> {
    let (ticket, assigned) = assigned(store, update)?;
    for _ in 0..assigned.nodes {
        store.weave(ticket)?;
    }
    publish_due(store, update.line, update.minute)?;
    Ok(assigned.version)
}

fn publish_due<A: Storage>(store: &mut Store<A>, line: Line, minute: Minute) -> Result<(), Error> {
    while store.publish(line, minute)?.version().is_some() {}
    Ok(())
}

/// `finish` in single calls: what is left of a ticket's version, which may be nothing.
fn finish<A: Storage>(
    store: &mut Store<A>,
    ticket: Ticket,
    minute: Minute,
) -> Result<Version, Error> {
    let register = store.areas().parts().register;
    let record = |number: u64| register.get((number as usize).wrapping_sub(1)).copied();
    let update = record(record(ticket.0).unwrap_or_default().update);
    let left = update.map_or(1, |update| update.count - update.woven);
    for _ in 0..left {
        store.weave(ticket)?;
    }
    let name = LineVersion(update.expect("WEAVE was accepted").name);
    publish_due(store, name.line(), minute)?;
    Ok(name.version())
}

/// The answer in words; a refusal is one too. What is no answer is why a call could not be kept.
pub fn words(answer: Result<Answer, Failure>) -> Result<String, Failure> {
    match answer {
        Ok(answer) => Ok(format!("{answer:?}")),
        Err(failure) => match failure.error() {
            Some(refused) => Ok(refusal(refused)),
            None => Err(failure),
        },
    }
}

/// A refusal in words.
pub fn refusal(error: Error) -> String {
    format!("refused: {}", error.number())
}

fn node_line(node: &Node) -> String {
    let (version, first, span) = (node.version.0, node.first, node.span);
    let (left, right, rest) = (node.left, node.right, node.rest);
    format!("node,{version},{first},{span},{left},{right},{rest}")
}

/// The bytes that a line has in hexadecimal digits.
fn bytes_of(digits: &str) -> Option<Vec<u8>> {
    let pairs = (0..digits.len())
        .step_by(2)
        .map(|at| digits.get(at..at + 2));
    let byte = |pair: Option<&str>| u8::from_str_radix(pair?, 16).ok();
    pairs.map(byte).collect()
}

/// One call of each kind on a store of one's own but FORMAT, with these numbers: on a ticket that is to be put, one that is put, and one
/// that has a version.
pub fn each(line: Line, version: Version, tickets: [Ticket; 3], page: &[u8]) -> Vec<Call> {
    let [begun, put, assigned] = tickets;
    vec![
        Call::Begin(1),
        Call::Put(begun, 0, page.to_vec()),
        Call::Write(line, put, PageIndex(0)),
        Call::Append(line, put),
        Call::Weave(assigned),
        Call::Publish(line, Minute(0)),
        Call::Branch(line, version),
        Call::SetWindows(b"600,660\n".to_vec()),
        Call::Read(line, version, ByteOffset(8), 64, 64),
        Call::Size(line, version),
        Call::Recent(line),
        Call::Stamp(line, version, PageIndex(2)),
        Call::View(line, version, PageIndex(2)),
    ]
}

impl Call {
    /// Whether it changes the store where it is accepted; but for PUBLISH, always.
    pub fn changes(&self) -> bool {
        let reads = ["READ", "SIZE", "RECENT", "STAMP", "VIEW"];
        !reads.contains(&self.name())
    }

    /// The word of the step program's line and of the table; none of a call that is made of several.
    pub fn name(&self) -> &'static str {
        match self {
            Call::Begin(..) => "BEGIN",
            Call::Put(..) => "PUT",
            Call::Write(..) => "WRITE",
            Call::Append(..) => "APPEND",
            Call::Weave(..) => "WEAVE",
            Call::Publish(..) => "PUBLISH",
            Call::Branch(..) => "BRANCH",
            Call::SetWindows(..) => "SETWINDOWS",
            Call::Read(..) => "READ",
            Call::Size(..) => "SIZE",
            Call::Recent(..) => "RECENT",
            Call::Stamp(..) => "STAMP",
            Call::View(..) => "VIEW",
            Call::Format(..) => "FORMAT",
            _ => "",
        }
    }

    /// Whether callers rely on what it shows to others or sets, so that it is synced at each publish.
    pub fn is_relied_on(&self) -> bool {
        matches!(
            self,
            Call::Publish(..) | Call::Branch(..) | Call::SetWindows(_)
        )
    }

    /// The version that it names, where it looks at one.
    pub fn version(&self) -> Option<(Line, Version)> {
        match self {
            Call::Branch(line, version)
            | Call::Read(line, version, ..)
            | Call::Size(line, version)
            | Call::Stamp(line, version, _)
            | Call::View(line, version, _) => Some((*line, *version)),
            _ => None,
        }
    }

    /// The same call with other numbers for its line and its ticket.
    pub fn renumbered(
        &self,
        line: impl Fn(Line) -> Line,
        ticket: impl Fn(Ticket) -> Ticket,
    ) -> Call {
        match self.clone() {
            Call::Put(t, i, bytes) => Call::Put(ticket(t), i, bytes),
            Call::Write(l, t, first) => Call::Write(line(l), ticket(t), first),
            Call::Append(l, t) => Call::Append(line(l), ticket(t)),
            Call::Weave(t) => Call::Weave(ticket(t)),
            Call::Publish(l, minute) => Call::Publish(line(l), minute),
            Call::Branch(l, v) => Call::Branch(line(l), v),
            Call::Read(l, v, offset, len, room) => Call::Read(line(l), v, offset, len, room),
            Call::Size(l, v) => Call::Size(line(l), v),
            Call::Recent(l) => Call::Recent(line(l)),
            Call::Stamp(l, v, page) => Call::Stamp(line(l), v, page),
            Call::View(l, v, page) => Call::View(line(l), v, page),
            other => other,
        }
    }

    /// The call that a line of the step program or of a host asks for; the line is one that is answered.
    pub fn of_line(line: &[u8]) -> Option<Call> {
        if let Some(text) = line.strip_prefix(b"SETWINDOWS,") {
            return Some(Call::SetWindows(text.to_vec()));
        }
        let (word, fields) = std::str::from_utf8(line).ok()?.split_once(',')?;
        let fields: Vec<&str> = fields.split(',').collect();
        let number = |at: usize| fields.get(at)?.parse::<u64>().ok();
        let (line, version) = (number(0).map(Line), number(1).map(Version));
        let (ticket, page) = (number(1).map(Ticket), number(2).map(PageIndex));
        Some(match word {
            "FORMAT" => Call::Format(Limits::new(number(0)?, number(1)?, number(2)?, number(3)?)),
            "BEGIN" => Call::Begin(number(0)?),
            "PUT" => Call::Put(Ticket(number(0)?), number(1)?, bytes_of(fields.get(2)?)?),
            "WRITE" => Call::Write(line?, ticket?, page?),
            "APPEND" => Call::Append(line?, ticket?),
            "WEAVE" => Call::Weave(Ticket(number(0)?)),
            "PUBLISH" => Call::Publish(line?, Minute(number(1)?)),
            "BRANCH" => Call::Branch(line?, version?),
            "READ" => {
                let (offset, len) = (ByteOffset(number(2)?), number(3)?);
                Call::Read(line?, version?, offset, len, len as usize)
            }
            "SIZE" => Call::Size(line?, version?),
            "RECENT" => Call::Recent(line?),
            "STAMP" => Call::Stamp(line?, version?, page?),
            _ => return None,
        })
    }

    /// An answer to it in the step program's words.
    pub fn answered(&self, answer: &Answer) -> String {
        let word = self.name().to_lowercase();
        match answer {
            Answer::Done if word == "put" => word,
            Answer::Done => "done".to_string(),
            Answer::Ticket(ticket) => format!("ticket,{ticket}"),
            Answer::Assigned(assigned) => {
                format!("version,{},{}", assigned.version, assigned.nodes)
            }
            Answer::Node(node) => node_line(node),
            Answer::Published(Published::Now(version)) => format!("published,{version}"),
            Answer::Published(Published::Waiting) => "waiting".to_string(),
            Answer::Published(_) => "held".to_string(),
            Answer::Line(line) => format!("line,{line}"),
            Answer::Version(version) => format!("{word},{version}"),
            Answer::Size(size) => format!("size,{size}"),
            Answer::Bytes(bytes) => {
                let digits = bytes.iter().map(|byte| format!("{byte:02x}"));
                format!("bytes,{}", digits.collect::<String>())
            }
            Answer::Kept(_) => unreachable!("no line asks for that"),
        }
    }

    /// Its numbers, in the order of the step program's lines.
    pub fn numbers(&self) -> Vec<u64> {
        match self {
            Call::Begin(n) => vec![*n],
            Call::Put(ticket, i, _) => vec![ticket.0, *i],
            Call::Write(line, ticket, first) => vec![line.0, ticket.0, first.0],
            Call::Append(line, ticket) => vec![line.0, ticket.0],
            Call::Weave(ticket) => vec![ticket.0],
            Call::Publish(line, minute) => vec![line.0, minute.0],
            Call::Read(line, version, offset, len, _) => vec![line.0, version.0, offset.0, *len],
            Call::Branch(line, version) | Call::Size(line, version) => vec![line.0, version.0],
            Call::Recent(line) => vec![line.0],
            Call::Stamp(line, version, page) | Call::View(line, version, page) => {
                vec![line.0, version.0, page.0]
            }
            _ => vec![],
        }
    }
}

/// The call that sets the windows of a list.
pub fn windows_of(list: &str) -> Call {
    Call::SetWindows(list.as_bytes().to_vec())
}

/// What a test's store begins with, alike on a store of one's own and on a handle.
pub trait Begin: Sized {
    /// A new line from a version of another; an error where it is refused.
    fn try_line_from(self, source: Line, version: Version) -> Result<Line, Failure>;

    /// A new line from a version of another.
    fn line_from(self, source: Line, version: Version) -> Line {
        let line = self.try_line_from(source, version);
        line.expect("room for a line")
    }

    /// The site's windows are these from here on.
    fn windows_are(self, list: &str);
}

impl<A: Storage> Begin for &mut Store<A> {
    fn try_line_from(self, source: Line, version: Version) -> Result<Line, Failure> {
        Ok(self.branch(source, version)?)
    }

    fn windows_are(self, list: &str) {
        self.set_windows(list).expect("a list");
    }
}

impl<L: Log> Begin for &Handle<L>
where
    Failure: From<L::Failure> + From<L::WindowsFailure>,
{
    fn try_line_from(self, source: Line, version: Version) -> Result<Line, Failure> {
        Ok(self.branch(source, version)?)
    }

    fn windows_are(self, list: &str) {
        let set = self.set_windows(list).map_err(Failure::from);
        set.expect("a list");
    }
}
