//! The store: every call, written once over any areas.

use crate::calls::areas::{Areas, Limits, Storage};
use crate::calls::counters::{ByteOffset, Line, LineVersion, Minute, PageIndex, Ticket, Version};
use crate::calls::error::Error;
use crate::calls::ffi::{self, State, Windows};
use crate::calls::windows::WindowsError;

/// A store: what the proved calls carry from one to the next, with the areas they work in.
///
/// An update goes through five stages: [`begin`](Store::begin) gives a ticket, [`put`](Store::put) takes its pages,
/// [`write`](Store::write) or [`append`](Store::append) gives it a version on a line, [`weave`](Store::weave) stores that
/// version's tree a node at a time, and [`publish`](Store::publish) makes a line's versions readable, in their order.
/// Updates may be in work beside each other. A published version never changes. A refused call changes nothing.
///
/// Line 0 begins with the store. [`branch`](Store::branch) begins another from a published version, up to sixteen in all.
/// It shares everything up to that version and goes on by itself: what is done on one line, no other reads.
///
/// A site may have windows, weekly times during which no version is published on any line, as while a bench is being fired:
/// [`set_windows`](Store::set_windows) takes their list. A new store has none.
///
/// ```
/// use pit_host::{ByteOffset, Limits, Line, Minute, Published, Store, Version};
/// # fn main() -> Result<(), pit_host::Error> {
/// let mut store = Store::format(Limits::new(16, 4, 8, 2))?;
/// let ticket = store.begin(1)?;
/// store.put(ticket, 0, &[7; 16])?;
/// let assigned = store.append(Line(0), ticket)?;
/// for _ in 0..assigned.nodes {
///     store.weave(ticket)?;
/// }
/// assert_eq!(store.publish(Line(0), Minute(0))?, Published::Now(Version(1)));
/// let mut bytes = [0; 4];
/// store.read(Line(0), Version(1), ByteOffset(12), &mut bytes)?;
/// assert_eq!(bytes, [7; 4]);
/// # Ok(())
/// # }
/// ```
#[derive(Clone, Debug, PartialEq, Eq)]
pub struct Store<A = Areas> {
    state: State,
    windows: Windows,
    areas: A,
}

/// What ASSIGN gave: the line's next version, and how many nodes are to be woven for it.
#[derive(Clone, Copy, Debug, PartialEq, Eq, Hash)]
#[non_exhaustive]
pub struct Assigned {
    /// The version.
    pub version: Version,
    /// Its node count.
    pub nodes: u64,
}

/// What PUBLISH did.
///
/// Nothing is published where it says [`Waiting`](Published::Waiting) or [`Held`](Published::Held): somebody has to call again. So one who
/// drops it is warned:
///
/// ```compile_fail
/// #![deny(unused_must_use)]
/// # use pit_host::{Error, Line, Minute, Store};
/// fn publish(store: &mut Store) -> Result<(), Error> {
///     store.publish(Line(0), Minute(0))?;
///     Ok(())
/// }
/// ```
///
/// Later calls may have more to tell, so a `match` has an arm for the rest.
#[derive(Clone, Copy, Debug, PartialEq, Eq, Hash)]
#[must_use = "where it is held or waits, nothing is published, and PUBLISH is to be called again"]
#[non_exhaustive]
pub enum Published {
    /// It published this version.
    Now(Version),
    /// Nothing: the line's next version is not woven whole, or there is none.
    Waiting,
    /// Nothing: the minute is inside a window.
    Held,
}

impl Published {
    /// The version that was published, if one was.
    ///
    /// ```
    /// use pit_host::{Published, Version};
    /// assert_eq!(Published::Now(Version(3)).version(), Some(Version(3)));
    /// assert_eq!(Published::Held.version(), None);
    /// ```
    pub fn version(self) -> Option<Version> {
        match self {
            Published::Now(version) => Some(version),
            Published::Waiting | Published::Held => None,
        }
    }
}

/// A node that WEAVE stored: its name, its two numbers, and how many nodes of its version are left.
///
/// Its version and its children's say their line too, each that on which the update got its version.
///
/// ```
/// use pit_host::{Limits, Line, LineVersion, Store, Version};
/// # fn main() -> Result<(), pit_host::Error> {
/// let mut store = Store::format(Limits::new(16, 4, 8, 2))?;
/// let plan = store.branch(Line(0), Version(0))?;
/// let ticket = store.begin(1)?;
/// store.put(ticket, 0, &[7; 16])?;
/// store.append(plan, ticket)?;
/// assert_eq!(store.weave(ticket)?.version, LineVersion::new(plan, Version(1)));
/// # Ok(())
/// # }
/// ```
#[derive(Clone, Copy, Debug, PartialEq, Eq, Hash)]
#[non_exhaustive]
pub struct Node {
    /// The version it belongs to, with its line.
    pub version: LineVersion,
    /// The first page of its range.
    pub first: PageIndex,
    /// The pages of its range; 1 is a leaf.
    pub span: u64,
    /// The left child's version with its line, 0 where no page is there; of a leaf, the page number.
    pub left: u32,
    /// The right child's version with its line, 0 where no page is there; of a leaf, 0.
    pub right: u32,
    /// How many nodes of its version are left to weave.
    pub rest: u64,
}

impl Store {
    /// FORMAT in new areas: an empty store. Refused: 1, 2.
    pub fn format(limits: Limits) -> Result<Store, Error> {
        Store::format_in(limits, Areas::new(&limits)?)
    }
}

impl<A> Store<A> {
    /// The store with this state and these windows in these areas, as [`into_parts`](Store::into_parts) gave them.
    ///
    /// Any numbers and any areas will do in that every call then ends, stays in bounds and refuses by the table. Only
    /// a state and areas that belong together, just as a call left them, are the store they were.
    ///
    /// ```
    /// use pit_host::{Areas, Error, Store, Limits, Line, State, Windows};
    /// let areas = Areas::new(&Limits::new(16, 1, 1, 1)).unwrap();
    /// let store = Store::resume(State::default(), Windows::default(), areas);
    /// assert_eq!(store.recent(Line(0)), Err(Error::AreaLength));
    /// ```
    pub fn resume(state: State, windows: Windows, areas: A) -> Store<A> {
        Store {
            state,
            windows,
            areas,
        }
    }

    /// What the calls carry from one to the next.
    pub fn state(&self) -> State {
        self.state
    }

    /// The site's windows.
    pub fn windows(&self) -> Windows {
        self.windows
    }

    /// The areas.
    pub fn areas(&self) -> &A {
        &self.areas
    }

    pub(crate) fn areas_mut(&mut self) -> &mut A {
        &mut self.areas
    }

    /// The state, the windows and the areas, for [`resume`](Store::resume).
    pub fn into_parts(self) -> (State, Windows, A) {
        (self.state, self.windows, self.areas)
    }

    /// The limits that the store was formatted with.
    pub fn limits(&self) -> Limits {
        self.state.limits()
    }
}

impl<A: Storage> Store<A> {
    /// FORMAT in areas of any kind: an empty store, whatever stood in the areas. Refused: 1, 2, 3.
    pub fn format_in(limits: Limits, mut areas: A) -> Result<Store<A>, Error> {
        let reply = ffi::format(limits.numbers(), areas.raw());
        Error::check(reply.refusal)?;
        Ok(Store::resume(reply.state, reply.windows, areas))
    }

    /// BEGIN: the next ticket, for an update of `n` pages. Refused: 3, 4, 5, 6.
    pub fn begin(&mut self, n: u64) -> Result<Ticket, Error> {
        let reply = ffi::begin(&self.state, self.areas.raw(), n);
        Error::check(reply.refusal)?;
        self.state = reply.state;
        Ok(Ticket(reply.ticket))
    }

    /// PUT: the bytes of page `i` of the update, counted from 0; in any order, each page once.
    /// Refused: 3, 7, 8, 9, 10, 11, 19.
    pub fn put(&mut self, ticket: Ticket, i: u64, bytes: &[u8]) -> Result<(), Error> {
        Error::check(ffi::put(&self.state, self.areas.raw(), ticket.0, i, bytes))
    }

    /// ASSIGN as a write: the line's next version, with the update's pages from page `first` on. `first` may be any page of
    /// the line's last assigned version, or the one after its end. Refused: 3, 7, 8, 20, 12, 13, 14, 15, 19.
    pub fn write(
        &mut self,
        line: Line,
        ticket: Ticket,
        first: PageIndex,
    ) -> Result<Assigned, Error> {
        let areas = self.areas.raw();
        let reply = ffi::write(&self.state, areas, line.0, ticket.0, first.0);
        self.assigned(reply)
    }

    /// ASSIGN as an append: the line's next version, with the update's pages at the end of its last assigned version.
    /// Refused: 3, 7, 8, 20, 12, 14, 15, 19.
    pub fn append(&mut self, line: Line, ticket: Ticket) -> Result<Assigned, Error> {
        let reply = ffi::append(&self.state, self.areas.raw(), line.0, ticket.0);
        self.assigned(reply)
    }

    fn assigned(&mut self, reply: ffi::AssignReply) -> Result<Assigned, Error> {
        Error::check(reply.refusal)?;
        self.state = reply.state;
        Ok(Assigned {
            version: Version(reply.version),
            nodes: reply.nodes,
        })
    }

    /// WEAVE: stores the next node of the ticket's version. Refused: 3, 7, 8, 19.
    pub fn weave(&mut self, ticket: Ticket) -> Result<Node, Error> {
        let reply = ffi::weave(&self.state, self.areas.raw(), ticket.0);
        Error::check(reply.refusal)?;
        Ok(Node {
            version: LineVersion(reply.version),
            first: PageIndex(reply.first),
            span: reply.span,
            // the node area's 32-bit numbers, widened for C
            left: reply.left as u32,
            right: reply.right as u32,
            rest: reply.rest,
        })
    }

    /// PUBLISH at a minute of the week: the version after the line's last published one, if it is fully woven; nothing where
    /// that is still awaited. Inside a window it is held, due or not: nothing moves, and the version is published by a
    /// later call. Only the minute given decides, also when the clock is set back. Refused: 3, 20, 22, 19.
    ///
    /// ```
    /// use pit_host::{Limits, Line, Minute, Published, Store};
    /// # fn main() -> Result<(), Box<dyn std::error::Error>> {
    /// let mut store = Store::format(Limits::new(16, 4, 8, 2))?;
    /// store.set_windows("600,660\n")?; // Monday from 10:00 until 11:00, where the week begins with Monday
    /// assert_eq!(store.publish(Line(0), Minute(599))?, Published::Waiting);
    /// assert_eq!(store.publish(Line(0), Minute(600))?, Published::Held);
    /// assert_eq!(store.publish(Line(0), Minute(659))?, Published::Held);
    /// assert_eq!(store.publish(Line(0), Minute(660))?, Published::Waiting);
    /// # Ok(())
    /// # }
    /// ```
    pub fn publish(&mut self, line: Line, minute: Minute) -> Result<Published, Error> {
        let areas = self.areas.parts();
        let reply = ffi::publish(&self.state, &self.windows, areas, line.0, minute.0);
        Error::check(reply.refusal)?;
        self.state = reply.state;
        Ok(match (reply.held, reply.version) {
            (0, 0) => Published::Waiting,
            (0, version) => Published::Now(Version(version)),
            _ => Published::Held,
        })
    }

    /// SETWINDOWS: the windows of a text, which replace the old ones whole. Refused, the old ones stay: 3, 23, 24; of 23
    /// the [`WindowsError`] says which line is wrong, and why.
    ///
    /// Each line of the text, the last too, is `from,to` and a line feed: up to 32 lines, each a [`Window`](crate::Window),
    /// in plain digits, with no sign, space or leading zero. The empty text is no windows.
    ///
    /// ```
    /// use pit_host::{Error, Limits, Store};
    /// # fn main() -> Result<(), Box<dyn std::error::Error>> {
    /// let mut store = Store::format(Limits::new(16, 4, 8, 2))?;
    /// store.set_windows("600,660\n10000,30\n")?; // the second one runs over the week's end
    /// let refused = store.set_windows("600,660\n2040,2040\n").unwrap_err();
    /// assert_eq!(refused.error(), Error::WrongWindow);
    /// assert_eq!(refused.to_string(), "no windows set: line 2, \"2040,2040\": from and to are equal");
    /// assert_eq!(store.windows().list().len(), 2);
    /// # Ok(())
    /// # }
    /// ```
    pub fn set_windows(&mut self, text: impl AsRef<[u8]>) -> Result<(), WindowsError> {
        let (text, areas) = (text.as_ref(), self.areas.parts());
        let reply = ffi::set_windows(&self.state, &self.windows, areas, text);
        Error::check(reply.refusal).map_err(|error| WindowsError::of(error, text))?;
        self.windows = reply.windows;
        Ok(())
    }

    /// BRANCH: a new line, from a published version of a line. It has everything up to that version, published there too,
    /// and goes on with its own next version. From version 0 it begins empty. Refused: 3, 20, 16, 21, 19.
    ///
    /// ```
    /// use pit_host::{Error, Limits, Line, Store, Version};
    /// # fn main() -> Result<(), pit_host::Error> {
    /// let mut store = Store::format(Limits::new(16, 4, 8, 2))?;
    /// assert_eq!(store.branch(Line(0), Version(0))?, Line(1));
    /// assert_eq!(store.recent(Line(1))?, Version(0));
    /// assert_eq!(store.branch(Line(2), Version(0)), Err(Error::NoSuchLine));
    /// assert_eq!(store.branch(Line(1), Version(1)), Err(Error::NotPublished));
    /// # Ok(())
    /// # }
    /// ```
    pub fn branch(&mut self, line: Line, version: Version) -> Result<Line, Error> {
        let reply = ffi::branch(&self.state, self.areas.parts(), line.0, version.0);
        Error::check(reply.refusal)?;
        self.state = reply.state;
        Ok(Line(reply.line))
    }

    /// READ: fills `buffer` with the bytes of a version from `offset` on. Refused, all of it stays: 3, 20, 16, 17, 19.
    ///
    /// ```
    /// # use pit_host::{ByteOffset, Error, Limits, Line, Minute, Store, Version};
    /// # fn main() -> Result<(), pit_host::Error> {
    /// # let mut store = Store::format(Limits::new(16, 4, 8, 2))?;
    /// # let ticket = store.begin(1)?;
    /// # store.put(ticket, 0, b"0123456789abcdef")?;
    /// # store.append(Line(0), ticket)?;
    /// # store.weave(ticket)?;
    /// # store.publish(Line(0), Minute(0))?;
    /// let mut bytes = [0; 4];
    /// store.read(Line(0), Version(1), ByteOffset(10), &mut bytes)?;
    /// assert_eq!(&bytes, b"abcd");
    /// let refused = store.read(Line(0), Version(1), ByteOffset(13), &mut bytes);
    /// assert_eq!((refused, &bytes), (Err(Error::OutsideSnapshot), b"abcd"));
    /// # Ok(())
    /// # }
    /// ```
    pub fn read(
        &self,
        line: Line,
        version: Version,
        offset: ByteOffset,
        buffer: &mut [u8],
    ) -> Result<(), Error> {
        if let Some(()) = self.read_in_page(line, version, offset, buffer) {
            return Ok(());
        }
        let numbers = self.numbers_of_many(line, version, offset, buffer.len());
        match numbers.and_then(|numbers| self.copy_numbered(numbers, offset, buffer)) {
            Some(()) => Ok(()),
            None => self.read_front(line, version, offset, buffer.len() as u64, buffer),
        }
    }

    /// READ with a length of its own, as the table of refusals and the C interface have it: fills the front of `buffer` with
    /// `len` bytes, and the rest of it stays. Refused, all of it stays: 3, 20, 16, 17, 18, 19.
    ///
    /// It is there for one who has the length and the buffer from two sides, and wants the store to compare them: only here
    /// can a buffer be too short, which is 18. Who has no such length calls [`read`](Store::read).
    pub fn read_front(
        &self,
        line: Line,
        version: Version,
        offset: ByteOffset,
        len: u64,
        buffer: &mut [u8],
    ) -> Result<(), Error> {
        let range = [line.0, version.0, offset.0, len];
        Error::check(ffi::read(&self.state, self.areas.parts(), range, buffer))
    }

    /// SIZE: the size of a version in bytes. Refused: 3, 20, 16, 19.
    pub fn size(&self, line: Line, version: Version) -> Result<u64, Error> {
        let reply = ffi::size(&self.state, self.areas.parts(), line.0, version.0);
        Error::check(reply.refusal).map(|()| reply.bytes)
    }

    /// RECENT: the line's last published version. Refused: 3, 20.
    pub fn recent(&self, line: Line) -> Result<Version, Error> {
        let reply = ffi::recent(&self.state, self.areas.parts(), line.0);
        Error::check(reply.refusal).map(|()| Version(reply.version))
    }

    /// STAMP: since which version a page has had the bytes that it has in `version`. It is the lowest version of the line, shared
    /// ones included, such that the page is in it and has the same bytes in every version from there to `version`. Refused:
    /// 3, 20, 16, 17, 19.
    ///
    /// Versions of a line in which a page has the same stamp have the same bytes there. A truck that has the page as of some
    /// version has to fetch it again exactly where the stamp in a later version is above that one: not where the page was resent
    /// unchanged, and always where it was changed, also where it was changed back.
    ///
    /// The call compares bytes: it takes longer for each update in a row that has resent the page unchanged.
    ///
    /// ```
    /// use pit_host::{Error, Limits, Line, Minute, PageIndex, Store, Version};
    /// /// A grader sends a page of 16 bytes.
    /// fn send(store: &mut Store, page: PageIndex, bytes: &[u8; 16]) -> Result<(), Error> {
    ///     let ticket = store.begin(1)?;
    ///     store.put(ticket, 0, bytes)?;
    ///     for _ in 0..store.write(Line(0), ticket, page)?.nodes {
    ///         store.weave(ticket)?;
    ///     }
    ///     store.publish(Line(0), Minute(0)).map(drop)
    /// }
    /// # fn main() -> Result<(), Error> {
    /// let (mut store, road) = (Store::format(Limits::new(16, 8, 8, 8))?, PageIndex(0));
    /// send(&mut store, road, &[7; 16])?; // version 1, which a truck has fetched
    /// send(&mut store, road, &[7; 16])?; // version 2, unchanged: the truck has the page already
    /// assert_eq!(store.stamp(Line(0), Version(2), road)?, Version(1));
    /// send(&mut store, road, &[8; 16])?; // version 3: the stamp is above 1, so that the truck fetches it
    /// assert_eq!(store.stamp(Line(0), Version(3), road)?, Version(3));
    /// # Ok(())
    /// # }
    /// ```
    pub fn stamp(&self, line: Line, version: Version, page: PageIndex) -> Result<Version, Error> {
        let areas = self.areas.parts();
        let reply = ffi::stamp(&self.state, areas, line.0, version.0, page.0);
        Error::check(reply.refusal).map(|()| Version(reply.version))
    }

    /// VIEW: the bytes of a page of a version, where they lie in the page area, uncopied. Refused: 3, 20, 16, 17, 19.
    pub fn view(&self, line: Line, version: Version, page: PageIndex) -> Result<&[u8], Error> {
        let (begin, length) = self.view_place(line, version, page)?;
        let pages = self.areas.parts().pages;
        // The proved call replies with a part inside the area that it was lent.
        let view = pages.get(begin..).and_then(|from| from.get(..length));
        view.ok_or(Error::Damaged)
    }

    /// VIEW: where in the page area a page of a version begins, and its length.
    #[inline]
    pub(crate) fn view_place(
        &self,
        line: Line,
        version: Version,
        page: PageIndex,
    ) -> Result<(usize, usize), Error> {
        let areas = self.areas.parts();
        let reply = ffi::view(&self.state, areas, line.0, version.0, page.0);
        Error::check(reply.refusal)?;
        let begin = usize::try_from(reply.begin).ok();
        let length = usize::try_from(reply.length).ok();
        begin.zip(length).ok_or(Error::Damaged)
    }
}
