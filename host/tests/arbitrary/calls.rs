//! What each call may do on any state, any windows and any areas, and how it is drawn for them: all of this program that a new call
//! is added to.

use crate::drawn::{
    argument, bytes_length, limits_of, read_of, some_line, some_minute, some_page, some_text, up_to,
};
use crate::memory::{Fenced, Memory};
use crate::random::Random;
use crate::scene::{publish, read, view, weave, InMemory, Outcome, Scene, BYTE};
use crate::support::call::{make_one, Call};
use crate::windows::{inside, listed, Window, WEEK};
use pit_host::{
    Error, Limits, Line, LineVersion, Minute, PageIndex, State, Ticket, Version, Windows,
};

/// The calls that may find damage, row 19.
pub const FIND_DAMAGE: [&str; 10] = [
    "PUT", "WRITE", "APPEND", "WEAVE", "PUBLISH", "BRANCH", "READ", "SIZE", "STAMP", "VIEW",
];
pub const OTHERS: [&str; 3] = ["BEGIN", "RECENT", "SETWINDOWS"];
/// The calls that name a line, row 20.
pub const NAME_LINES: [&str; 9] = [
    "WRITE", "APPEND", "PUBLISH", "BRANCH", "READ", "SIZE", "RECENT", "STAMP", "VIEW",
];
/// The rows from 21 on, and the call that each is of.
pub const LAST_ROWS: [(u64, &str); 4] = [
    (21, "BRANCH"),
    (22, "PUBLISH"),
    (23, "SETWINDOWS"),
    (24, "SETWINDOWS"),
];

impl Call {
    /// Makes it with the bytes in a buffer, where it has any. What it answers fits what it did.
    pub fn perform(&self, store: &mut InMemory<'_>, buffer: &mut Fenced<u8>) -> Outcome {
        Ok(match *self {
            Call::Put(t, i, _) => store.put(t, i, buffer.part()),
            Call::SetWindows(_) => store.set_windows(buffer.part()).map_err(Error::from),
            Call::Weave(t) => weave(store, t)?,
            Call::Publish(line, minute) => publish(store, line, minute)?,
            Call::Read(line, v, offset, len, _) => {
                read(store, [line.0, v.0, offset.0, len], buffer.parts_mut())?
            }
            Call::View(line, v, page) => view(store, line, v, page)?,
            ref call => make_one(store, call).map(drop),
        })
    }

    /// Whether it may write pages, nodes and the register.
    pub fn writes(&self) -> [bool; 3] {
        match self {
            Call::Format(..) => [true, true, true],
            Call::Put(..) => [true, false, true],
            Call::Weave(..) => [false, true, true],
            Call::Begin(..) | Call::Write(..) | Call::Append(..) => [false, false, true],
            _ => [false, false, false],
        }
    }

    /// Whether it may, accepted, leave this state after that one.
    pub fn moves(&self, before: &State, after: &State) -> bool {
        let mut due = *before;
        match *self {
            Call::Format(limits) => due = fresh(&limits),
            Call::Begin(n) => {
                due.tickets += 1;
                due.taken += n;
            }
            Call::Write(line, ..) | Call::Append(line, _) => {
                due.assigned += 1;
                due.places = after.places.max(before.places + 1);
                let (mut of, after) = (due.line(line), after.line(line));
                of.assigned += 1;
                of.blob = after.blob.max(of.blob);
                due.set_line(line, of);
            }
            Call::Publish(line, _) => {
                let mut of = due.line(line);
                of.published += 1; // if it is neither waiting nor held
                due.set_line(line, of);
            }
            Call::Branch(line, v) => {
                let new = Line(before.begun);
                let mut of = after.line(new); // its size in pages
                (of.source, of.start) = (line.0, v.0);
                (of.assigned, of.published) = (v.0, v.0);
                due.set_line(new, of);
                due.begun += 1;
            }
            _ => (),
        }
        *after == due
    }

    /// Its bytes, its text, or its buffer before it.
    pub fn bytes(&self) -> Vec<u8> {
        match self {
            Call::Put(_, _, bytes) => bytes.clone(),
            Call::Read(.., room) => vec![BYTE; *room],
            Call::SetWindows(text) => text.clone(),
            _ => vec![],
        }
    }

    /// The windows that it leaves where it is accepted.
    pub fn sets(&self, windows: &Windows) -> Windows {
        match self {
            Call::Format(..) => Windows::default(),
            Call::SetWindows(text) => placed(&listed(text).unwrap_or_default()),
            _ => *windows,
        }
    }

    /// The numbers that it may answer with, 0 for acceptance: one alone where the state, the lengths and the arguments
    /// decide it by the table.
    pub fn may_answer(&self, scene: &Scene) -> Vec<u64> {
        let (s, memory) = (&scene.state, &scene.memory);
        match *self {
            Call::Format(limits) => vec![format_row(&limits, memory)],
            _ if lengths_differ(s, memory) => vec![3],
            Call::Begin(n) => vec![begin_row(s, n)],
            Call::Recent(line) => vec![if no_line(s, line.0) { 20 } else { 0 }],
            Call::Publish(line, minute) => publish_rows(scene, line.0, minute.0),
            Call::SetWindows(ref text) => vec![listed(text).err().unwrap_or(0)],
            Call::Put(t, ..) | Call::Write(_, t, _) | Call::Append(_, t) | Call::Weave(t) => {
                self.may_answer_for_ticket(t.0, s, memory)
            }
            _ => match self.version() {
                Some((line, v)) => self.may_answer_for_version(line.0, v.0, s, memory),
                None => unreachable!("{self:?} is not made here"),
            },
        }
    }

    /// A row that would read a record past the register does not hold: 19 does, in its turn as the last.
    fn may_answer_for_ticket(&self, ticket: u64, s: &State, memory: &Memory) -> Vec<u64> {
        if ticket == 0 || s.tickets < ticket {
            return vec![7];
        }
        let record = memory.register.part().get(ticket as usize - 1);
        let past = record.is_none();
        if record.map_or(false, |r| r.update != 0) && !matches!(self, Call::Weave(_)) {
            return vec![8];
        }
        match *self {
            Call::Write(line, ..) | Call::Append(line, _) if no_line(s, line.0) => vec![20],
            Call::Put(_, _, ref bytes) if past && bytes.len() as u64 != s.size => vec![11],
            Call::Write(line, _, f) if past && s.line(line).blob < f.0 => vec![13],
            _ if past => vec![19],
            Call::Put(..) => vec![0, 9, 10, 11, 19],
            Call::Write(..) => vec![0, 12, 13, 14, 15, 19],
            Call::Append(..) => vec![0, 12, 14, 15, 19],
            _ => vec![0, 8, 19],
        }
    }

    /// BRANCH, READ, SIZE, STAMP and VIEW. Where the register does not name the version's update at once, it may name one
    /// that is not there.
    fn may_answer_for_version(
        &self,
        line: u64,
        version: u64,
        s: &State,
        memory: &Memory,
    ) -> Vec<u64> {
        if no_line(s, line) {
            return vec![20];
        }
        let past = s.updates < version;
        match *self {
            _ if s.line(Line(line)).published < version => vec![16],
            Call::Branch(..) if s.begun >= 16 => vec![21],
            Call::Read(_, _, _, len, room) if past && (room as u64) < len => vec![18],
            _ if past => vec![19],
            Call::Read(..) => vec![0, 17, 18, 19],
            Call::Size(..) | Call::Branch(..) if at_once(s, memory, line, version) => vec![0],
            Call::Size(..) | Call::Branch(..) => vec![0, 19],
            _ => vec![0, 17, 19],
        }
    }
}

/// Draws a call on a scene, mostly with numbers of the scene.
pub fn draw(random: &mut Random, scene: &Scene) -> Call {
    let s = &scene.state;
    let line = some_line(random, scene);
    let published = s.line(Line(line)).published;
    let (ticket, version) = (
        Ticket(up_to(random, scene, s.tickets)),
        Version(up_to(random, scene, published)),
    );
    let (line, other) = (Line(line), argument(random, scene));
    match random.below(29) {
        0 if random.one_in(4) => Call::Format(limits_of(random, scene)),
        0 | 1 => Call::Begin(up_to(random, scene, 6)),
        2..=4 => Call::Put(ticket, other, vec![BYTE; bytes_length(random, s)]),
        5 | 6 => Call::Write(line, ticket, PageIndex(other)),
        7 | 8 => Call::Append(line, ticket),
        9..=12 => Call::Weave(ticket),
        13 | 14 | 26 => Call::Publish(line, Minute(some_minute(random, scene))),
        27 | 28 => Call::SetWindows(some_text(random)),
        15..=17 => read_of(random, scene, line, version),
        18 => Call::Size(line, version),
        19 => Call::Recent(line),
        20 | 21 => {
            let page = PageIndex(some_page(random, scene, version.0));
            Call::Stamp(line, version, page)
        }
        22 if random.one_in(2) => Call::Branch(line, Version(0)),
        22 | 23 => Call::Branch(line, version),
        _ => Call::View(
            line,
            version,
            PageIndex(some_page(random, scene, version.0)),
        ),
    }
}

/// Row 20. No store has more than sixteen lines, whatever its state says.
pub fn no_line(s: &State, line: u64) -> bool {
    s.begun.min(16) <= line
}

/// Whether a version's record is that of its own number: the version is 0, or the record of that number names it.
fn at_once(s: &State, memory: &Memory, line: u64, version: u64) -> bool {
    if version == 0 {
        return true;
    }
    let own = LineVersion::new(Line(owner_of(s, line, version)), Version(version));
    let record = memory.register.part().get(version as usize - 1);
    record.map(|r| r.name) == Some(own.0)
}

/// The line on which a version got its number: from line to source as long as the version is not above the start.
pub fn owner_of(s: &State, mut line: u64, version: u64) -> u64 {
    for _ in 0..15 {
        let of = s.line(Line(line));
        if of.start < version {
            break;
        }
        line = of.source;
    }
    line
}

/// Row 3. Products are compared in 128 bits, where none wraps.
pub fn lengths_differ(s: &State, memory: &Memory) -> bool {
    let wide = |n: u64| u128::from(n);
    memory.pages.part().len() as u128 != wide(s.size) * wide(s.pages)
        || memory.nodes.part().len() as u128 != 2 * wide(s.nodes)
        || memory.register.part().len() as u128 != wide(s.updates)
}

fn format_row(limits: &Limits, memory: &Memory) -> u64 {
    let s = fresh(limits);
    if !(16..=4096).contains(&s.size) || !s.size.is_power_of_two() {
        1
    } else if !(1..=65_535).contains(&s.pages)
        || !(1..=131_072).contains(&s.nodes)
        || !(1..=4_096).contains(&s.updates)
    {
        2
    } else if lengths_differ(&s, memory) {
        3
    } else {
        0
    }
}

fn begin_row(s: &State, n: u64) -> u64 {
    if n == 0 || n > 64 {
        4
    } else if s.tickets >= s.updates {
        5
    } else if u128::from(s.taken) + u128::from(n) > u128::from(s.pages) {
        6
    } else {
        0
    }
}

/// Waiting and held are no refusals.
fn publish_rows(scene: &Scene, line: u64, minute: u64) -> Vec<u64> {
    let (s, memory) = (&scene.state, &scene.memory);
    if no_line(s, line) {
        return vec![20];
    }
    if minute >= WEEK {
        return vec![22];
    }
    let of = s.line(Line(line));
    if inside(&ends(&scene.windows), minute) || of.assigned <= of.published {
        vec![0]
    } else if s.updates <= of.published {
        vec![19]
    } else if of.start <= of.published && at_once(s, memory, line, of.published + 1) {
        vec![0]
    } else {
        vec![0, 19]
    }
}

/// What stands in the places up to the first with equal ends, as one that is not used has them; whatever the places hold.
pub fn ends(windows: &Windows) -> Vec<Window> {
    let places = windows.places.iter().take_while(|w| w.from != w.to);
    let window = |w: &pit_host::Window| Window {
        from: w.from.into(),
        to: w.to.into(),
    };
    places.map(window).collect()
}

/// The windows of a list, and zeros in the places after them.
fn placed(list: &[Window]) -> Windows {
    let mut windows = Windows::default();
    for (place, window) in windows.places.iter_mut().zip(list) {
        (place.from, place.to) = (window.from as u16, window.to as u16);
    }
    windows
}

/// The state of an empty store.
pub fn fresh(limits: &Limits) -> State {
    let mut state = State::default();
    (state.size, state.pages) = (limits.page_size, limits.pages);
    (state.nodes, state.updates) = (limits.nodes, limits.updates);
    state.begun = 1;
    state
}
