//! The C functions of the proved static libraries, and a safe function over each. All `unsafe` of the crate is here, but
//! for the lock on a file, hints about memory, and the page memory that threads share.
//!
//! The proved functions are total: they end and stay inside the areas they are lent, whatever store, numbers and
//! bytes they are given. So nothing is asked of a caller here but slices, whose borrows keep the areas of one call
//! apart and alive. Slices cross as pointer and length in elements; the pointer of a slice is never null. The calls are
//! `inline`, so that a program that uses them copies no reply twice.

use crate::calls::areas::{Parts, PartsMut};
use crate::calls::counters::Line;
use std::marker::PhantomData;
use std::mem::size_of;

/// A store's lines are at most so many.
pub const LINES: usize = 16;

/// One line of a store: where it begins, and how far it has come. It is all zeros where the line has not begun.
///
/// A [`State`] keeps its lines packed, and [`State::line`] gives this.
///
/// ```
/// use pit_host::{Limits, Line, Store, Version};
/// let mut store = Store::format(Limits::new(16, 4, 8, 2)).unwrap();
/// store.branch(Line(0), Version(0)).unwrap();
/// let line = store.state().line(Line(1));
/// assert_eq!((line.source, line.start, line.assigned, line.published, line.blob), (0, 0, 0, 0, 0));
/// ```
#[derive(Clone, Copy, Debug, Default, PartialEq, Eq, Hash)]
#[non_exhaustive]
pub struct LineState {
    /// The line that it begins from.
    pub source: u64,
    /// The version that it begins from: up to this one its versions are the source's.
    pub start: u64,
    /// The last version assigned.
    pub assigned: u64,
    /// The last version published.
    pub published: u64,
    /// The size in pages of the last version assigned.
    pub blob: u64,
}

/// What the proved calls carry from one to the next: the limits that FORMAT accepted, five counters, and the lines, which
/// are packed. Its fields are plain numbers, so that a host can keep a store's state wherever it keeps the lent areas.
///
/// ```
/// use pit_host::{Limits, Line, Store};
/// let store = Store::format(Limits::new(16, 4, 8, 2)).unwrap();
/// let state = store.state();
/// assert_eq!((state.size, state.pages, state.nodes, state.updates), (16, 4, 8, 2));
/// assert_eq!((state.tickets, state.begun, state.line(Line(0)).published), (0, 1, 0));
/// ```
///
/// Later stores may carry more, so a host that puts one together sets the fields of the default, which is all zeros:
///
/// ```compile_fail,E0639
/// # let (size, pages, nodes, updates, tickets, taken, assigned, places, begun) = (16, 4, 8, 2, 0, 0, 0, 0, 1);
/// # let (sources, lines) = (0, [0; 16]);
/// let state = pit_host::State { size, pages, nodes, updates, tickets, taken, assigned, places, begun, sources, lines };
/// ```
#[repr(C)]
#[derive(Clone, Copy, Debug, Default, PartialEq, Eq, Hash)]
#[non_exhaustive]
pub struct State {
    /// The page size in bytes.
    pub size: u64,
    /// How many pages the page area holds.
    pub pages: u64,
    /// How many nodes the node area holds.
    pub nodes: u64,
    /// How many updates the register holds.
    pub updates: u64,
    /// The last ticket given.
    pub tickets: u64,
    /// How many page numbers are taken.
    pub taken: u64,
    /// How many updates have a version, over all lines.
    pub assigned: u64,
    /// How many node places are taken.
    pub places: u64,
    /// How many lines have begun.
    pub begun: u64,
    /// The lines that the lines begin from, 4 bits a line, line 0 lowest.
    pub sources: u64,
    /// The lines, in the order in which they begin: 16 bits each, the lowest first, for the version that it begins from, the
    /// last version assigned, the last published, and the size in pages of the last assigned.
    pub lines: [u64; 16],
}

/// How many bits of a line's number one of its four takes, and how many of `sources` a line.
const NUMBER_BITS: u32 = 16;
const SOURCE_BITS: u32 = 4;

impl State {
    /// A line, unpacked; all zeros where no such line has begun.
    pub fn line(&self, line: Line) -> LineState {
        let at = match usize::try_from(line.0) {
            Ok(at) if at < LINES => at,
            _ => return LineState::default(),
        };
        let number = |k: u32| (self.lines[at] >> (k * NUMBER_BITS)) % (1 << NUMBER_BITS);
        LineState {
            source: (self.sources >> (at as u32 * SOURCE_BITS)) % (1 << SOURCE_BITS),
            start: number(0),
            assigned: number(1),
            published: number(2),
            blob: number(3),
        }
    }

    /// Packs a line in its place. Of each number the bits that there is room for are kept, 4 of the source and 16 of the
    /// others. Of a line past the last nothing is.
    ///
    /// Only the store's calls have a reason to change a line, and a host that puts a state together.
    ///
    /// ```
    /// use pit_host::{Line, State};
    /// let mut state = State::default();
    /// let mut line = state.line(Line(2));
    /// (line.source, line.assigned, line.blob) = (1, 7, 4_096);
    /// state.set_line(Line(2), line);
    /// assert_eq!((state.sources, state.lines[2]), (0x100, 0x1000_0000_0007_0000));
    /// assert_eq!(state.line(Line(2)), line);
    /// ```
    pub fn set_line(&mut self, line: Line, to: LineState) {
        let at = match usize::try_from(line.0) {
            Ok(at) if at < LINES => at,
            _ => return,
        };
        let numbers = [to.blob, to.published, to.assigned, to.start];
        let packed = |word, number: u64| (word << NUMBER_BITS) | (number % (1 << NUMBER_BITS));
        self.lines[at] = numbers.into_iter().fold(0, packed);
        let shift = at as u32 * SOURCE_BITS;
        let source = to.source % (1 << SOURCE_BITS);
        self.sources = (self.sources & !(0xf << shift)) | (source << shift);
    }
}

/// For each line the number of an update, 16 bits a line, four lines a number, the lowest first; 0 for none.
#[repr(C)]
#[derive(Clone, Copy, Debug, Default, PartialEq, Eq, Hash)]
#[non_exhaustive]
pub struct Entries {
    /// Lines 0 to 3.
    pub from0: u64,
    /// Lines 4 to 7.
    pub from4: u64,
    /// Lines 8 to 11.
    pub from8: u64,
    /// Lines 12 to 15.
    pub from12: u64,
}

/// A record of the register of updates: the k-th holds the k-th ticket's part, and the k-th update's, in the order of ASSIGN
/// over all lines; and for each line the update that is its own version k. An empty record, the default, is all zeros.
/// Only the store's calls have a reason to write one.
///
/// ```
/// let register = [pit_host::Record::default(); 8];
/// assert_eq!(register[0].update, 0);
/// ```
///
/// Later records may hold more, so there is no literal of one outside this crate:
///
/// ```compile_fail,E0639
/// # let (n, number, put, update, ticket, name, f, last) = (0, 0, 0, 0, 0, 0, 0, 0);
/// # let (top, past, span, size, count, woven, entries) = (0, 0, 0, 0, 0, 0, pit_host::Entries::default());
/// let record = pit_host::Record {
///     n, number, put, update, ticket, name, f, last, top, past, span, size, count, woven, entries
/// };
/// ```
#[repr(C)]
#[derive(Clone, Copy, Debug, Default, PartialEq, Eq, Hash)]
#[non_exhaustive]
pub struct Record {
    /// The ticket's pages.
    pub n: u64,
    /// The ticket's first page number.
    pub number: u64,
    /// Which of the ticket's pages are put: bit i for page i.
    pub put: u64,
    /// The number of the ticket's update; 0 before it has a version.
    pub update: u64,
    /// The update's ticket.
    pub ticket: u64,
    /// The line and version that the update got, as a [`LineVersion`](crate::LineVersion).
    pub name: u64,
    /// The update's first page.
    pub f: u64,
    /// The update's last page.
    pub last: u64,
    /// The update's first node place, with its root's height added.
    pub top: u64,
    /// 2f less the number of one bits in f: the sum of f, f/2, f/4 and so on.
    pub past: u64,
    /// The span of the update's root: the smallest power of two not below the size.
    pub span: u64,
    /// The blob's size in pages after the update, on its line.
    pub size: u64,
    /// How many nodes the update makes.
    pub count: u64,
    /// How many of the update's nodes are woven.
    pub woven: u64,
    /// For each line the number of the update that is its own version of this record's number.
    pub entries: Entries,
}

impl Record {
    /// The number of the ticket's page i. None past the last number.
    pub(crate) fn page_number(&self, i: u64) -> Option<u64> {
        self.number.checked_add(i)
    }

    /// Whether the ticket's page i is put.
    pub(crate) fn is_put(&self, i: u64) -> bool {
        let bit = u32::try_from(i).ok().and_then(|i| self.put.checked_shr(i));
        bit.unwrap_or(0) & 1 == 1
    }
}

/// A weekly window, during which no version is published, in minutes of the week 0 to 10,079: `from` is inside, `to` is
/// outside. Where `from` is above `to` it runs over the week's end. One with equal ends has no minute.
#[repr(C)]
#[derive(Clone, Copy, Debug, Default, PartialEq, Eq, Hash)]
pub struct Window {
    /// The first minute inside.
    pub from: u16,
    /// The first minute outside again.
    pub to: u16,
}

/// A site's windows, as [`set_windows`](crate::Store::set_windows) reads them from their text; that is also how to get
/// some. [`Windows::list`] has those in use. The default is no windows.
///
/// ```
/// use pit_host::{Limits, Store, Window, Windows};
/// let mut store = Store::format(Limits::new(16, 4, 8, 2)).unwrap();
/// assert_eq!(store.windows(), Windows::default());
/// store.set_windows("600,660\n10000,30\n").unwrap();
/// let windows = store.windows();
/// assert_eq!(windows.list(), [Window { from: 600, to: 660 }, Window { from: 10_000, to: 30 }]);
/// assert_eq!(windows.to_string(), "600,660\n10000,30\n");
/// ```
#[repr(C)]
#[derive(Clone, Copy, Default, PartialEq, Eq, Hash)]
pub struct Windows {
    /// The windows, in the order of their text; the places after them are 0. A host that keeps a store's parts by itself
    /// keeps these too.
    pub places: [Window; 32],
}

// Replies begin with the number of the refusal, 0 where the call was accepted; the rest is then what it answers.

#[repr(C)]
pub struct FormatReply {
    pub refusal: u64,
    pub state: State,
    pub windows: Windows,
}

#[repr(C)]
pub struct BeginReply {
    pub refusal: u64,
    pub state: State,
    pub ticket: u64,
}

#[repr(C)]
pub struct AssignReply {
    pub refusal: u64,
    pub state: State,
    pub version: u64,
    pub nodes: u64,
}

#[repr(C)]
pub struct WeaveReply {
    pub refusal: u64,
    pub version: u64,
    pub first: u64,
    pub span: u64,
    pub left: u64,
    pub right: u64,
    pub rest: u64,
}

/// Held is 1 inside a window, else 0; and then version 0 is "waiting".
#[repr(C)]
pub struct PublishReply {
    pub refusal: u64,
    pub state: State,
    pub version: u64,
    pub held: u64,
}

#[repr(C)]
pub struct WindowsReply {
    pub refusal: u64,
    pub windows: Windows,
}

#[repr(C)]
pub struct BranchReply {
    pub refusal: u64,
    pub state: State,
    pub line: u64,
}

#[repr(C)]
pub struct SizeReply {
    pub refusal: u64,
    pub bytes: u64,
}

/// What RECENT and STAMP reply.
#[repr(C)]
pub struct VersionReply {
    pub refusal: u64,
    pub version: u64,
}

/// Where in the page area the page begins, and its length.
#[repr(C)]
pub struct ViewReply {
    pub refusal: u64,
    pub begin: u64,
    pub length: u64,
}

// Numbers of 64 bits and windows, without gaps: the layout that the libraries were proved and compiled with.
const _: () = assert!(
    size_of::<State>() == 8 * (10 + LINES)
        && size_of::<Entries>() == 8 * 4
        && size_of::<Record>() == 8 * 18
        && size_of::<Windows>() == 32 * 2 * 2
        && size_of::<FormatReply>() == 8 + size_of::<State>() + size_of::<Windows>()
        && size_of::<BeginReply>() == 8 * 2 + size_of::<State>()
        && size_of::<AssignReply>() == 8 * 3 + size_of::<State>()
        && size_of::<WeaveReply>() == 8 * 7
        && size_of::<PublishReply>() == 8 * 3 + size_of::<State>()
        && size_of::<WindowsReply>() == 8 + size_of::<Windows>()
        && size_of::<BranchReply>() == 8 * 2 + size_of::<State>()
        && size_of::<SizeReply>() == 8 * 2
        && size_of::<VersionReply>() == 8 * 2
        && size_of::<ViewReply>() == 8 * 3
);

#[rustfmt::skip] // an area a line: pointer, length
extern "C" {
    fn pit_root_span(size: u64) -> u64;
    fn pit_node_count(f: u64, n: u64, size: u64) -> u64;
    fn pit_worst(r: u64, n: u64) -> u64;

    fn pit_format(
        size: u64, page_count: u64, node_count: u64, updates: u64,
        pages: *mut u8, pages_len: usize,
        nodes: *mut u32, nodes_len: usize,
        register: *mut Record, register_len: usize,
    ) -> FormatReply;
    fn pit_begin(
        s: State,
        pages: *const u8, pages_len: usize,
        nodes: *const u32, nodes_len: usize,
        register: *mut Record, register_len: usize,
        n: u64,
    ) -> BeginReply;
    fn pit_put(
        s: State,
        pages: *mut u8, pages_len: usize,
        nodes: *const u32, nodes_len: usize,
        register: *mut Record, register_len: usize,
        ticket: u64, i: u64,
        bytes: *const u8, bytes_len: usize,
    ) -> u64;
    fn pit_write(
        s: State,
        pages: *const u8, pages_len: usize,
        nodes: *const u32, nodes_len: usize,
        register: *mut Record, register_len: usize,
        line: u64, ticket: u64, f: u64,
    ) -> AssignReply;
    fn pit_append(
        s: State,
        pages: *const u8, pages_len: usize,
        nodes: *const u32, nodes_len: usize,
        register: *mut Record, register_len: usize,
        line: u64, ticket: u64,
    ) -> AssignReply;
    fn pit_weave(
        s: State,
        pages: *const u8, pages_len: usize,
        nodes: *mut u32, nodes_len: usize,
        register: *mut Record, register_len: usize,
        ticket: u64,
    ) -> WeaveReply;
    fn pit_publish(
        s: State,
        w: Windows,
        pages: *const u8, pages_len: usize,
        nodes: *const u32, nodes_len: usize,
        register: *const Record, register_len: usize,
        line: u64, minute: u64,
    ) -> PublishReply;
    fn pit_set_windows(
        s: State,
        w: Windows,
        pages: *const u8, pages_len: usize,
        nodes: *const u32, nodes_len: usize,
        register: *const Record, register_len: usize,
        text: *const u8, text_len: usize,
    ) -> WindowsReply;
    fn pit_branch(
        s: State,
        pages: *const u8, pages_len: usize,
        nodes: *const u32, nodes_len: usize,
        register: *const Record, register_len: usize,
        line: u64, version: u64,
    ) -> BranchReply;
    fn pit_read(
        s: State,
        pages: *const u8, pages_len: usize,
        nodes: *const u32, nodes_len: usize,
        register: *const Record, register_len: usize,
        line: u64, version: u64, offset: u64, len: u64,
        buffer: *mut u8, buffer_len: usize,
    ) -> u64;
    fn pit_size(
        s: State,
        pages: *const u8, pages_len: usize,
        nodes: *const u32, nodes_len: usize,
        register: *const Record, register_len: usize,
        line: u64, version: u64,
    ) -> SizeReply;
    fn pit_recent(
        s: State,
        pages: *const u8, pages_len: usize,
        nodes: *const u32, nodes_len: usize,
        register: *const Record, register_len: usize,
        line: u64,
    ) -> VersionReply;
    fn pit_stamp(
        s: State,
        pages: *const u8, pages_len: usize,
        nodes: *const u32, nodes_len: usize,
        register: *const Record, register_len: usize,
        line: u64, version: u64, page: u64,
    ) -> VersionReply;
    fn pit_view(
        s: State,
        pages: *const u8, pages_len: usize,
        nodes: *const u32, nodes_len: usize,
        register: *const Record, register_len: usize,
        line: u64, version: u64, page: u64,
    ) -> ViewReply;
}

/// The span, in pages, of the root of the tree of a blob of `size` pages: the smallest power of two
/// not below `size`. It is 0 where `size` is 0 or above 4,096, since no tree has that size.
///
/// ```
/// assert_eq!(pit_host::root_span(5), 8);
/// assert_eq!(pit_host::root_span(4096), 4096);
/// assert_eq!(pit_host::root_span(4097), 0);
/// ```
pub fn root_span(size: u64) -> u64 {
    // SAFETY: it takes and returns a plain number, is proved for every argument, and touches no memory of ours.
    unsafe { pit_root_span(size) }
}

/// How many nodes an update of the `n` pages from page `f` makes, where the blob has `size` pages
/// after it: the sum, over q = 1, 2, 4 up to the root's span, of floor((f+n-1)/q) - floor(f/q) + 1.
/// It is 0 where `n` is 0 or above 64, `size` is 0 or above 4,096, or f + n is above `size`.
///
/// ```
/// assert_eq!(pit_host::node_count(1, 2, 4), 5);
/// assert_eq!(pit_host::node_count(4095, 1, 4096), 13);
/// assert_eq!(pit_host::node_count(u64::MAX, 1, 4096), 0);
/// ```
pub fn node_count(f: u64, n: u64, size: u64) -> u64 {
    // SAFETY: it takes and returns plain numbers, is proved for all arguments, and touches no memory of ours.
    unsafe { pit_node_count(f, n, size) }
}

/// The most nodes that a write of `n` pages makes in a blob of exactly `r` pages, the write inside them: 1 and the sum, over
/// q = 1, 2, 4 up to r/2, of floor((n+q-2)/q) + 1. The write from page r/2 - 1 on makes so many; an update of fewer pages, or
/// one that leaves a smaller blob, makes no more. It is 0 unless `r` is a power of two from 2 to 4,096 and `n` is 1 to the
/// lesser of 64 and r/2.
///
/// ```
/// use pit_host::{node_count, worst_node_count};
/// assert_eq!(worst_node_count(64, 2), 13);
/// assert_eq!(node_count(31, 2, 64), 13);
/// assert_eq!(worst_node_count(4096, 64), 144);
/// assert_eq!(worst_node_count(4096, 65), 0);
/// assert_eq!(worst_node_count(6, 1), 0);
/// ```
pub fn worst_node_count(r: u64, n: u64) -> u64 {
    // SAFETY: it takes and returns plain numbers, is proved for all arguments, and touches no memory of ours.
    unsafe { pit_worst(r, n) }
}

/// Areas lent to one call that changes them, as pointers. Nobody else writes them meanwhile, or reads what the call writes; of a store that
/// threads share, readers may hold pages that are put, which no call writes.
pub struct RawAreas<'a> {
    pages: (*mut u8, usize),
    nodes: (*mut u32, usize),
    register: (*mut Record, usize),
    lent: PhantomData<&'a mut Record>,
}

impl<'a> RawAreas<'a> {
    /// # Safety
    ///
    /// `pages` are so many bytes for as long as `'a`, and nobody writes them meanwhile, nor reads a page that PUT is asked to write; the
    /// bytes that it is given are no part of them.
    #[inline]
    pub(crate) unsafe fn new(
        pages: *mut u8,
        length: usize,
        nodes: &'a mut [u32],
        register: &'a mut [Record],
    ) -> RawAreas<'a> {
        RawAreas {
            pages: (pages, length),
            nodes: (nodes.as_mut_ptr(), nodes.len()),
            register: (register.as_mut_ptr(), register.len()),
            lent: PhantomData,
        }
    }
}

impl<'a> From<PartsMut<'a>> for RawAreas<'a> {
    #[inline]
    fn from(areas: PartsMut<'a>) -> RawAreas<'a> {
        let (pages, length) = (areas.pages.as_mut_ptr(), areas.pages.len());
        // SAFETY: the pages are borrowed mutably for `'a`, so nobody else reads or writes them.
        unsafe { RawAreas::new(pages, length, areas.nodes, areas.register) }
    }
}

/// Expands to a call of a C function, each area given as its pointer and length. `lent` areas are there for this call
/// alone; `seen` ones are only read.
macro_rules! call {
    ($name:ident($($before:expr),*; lent $areas:ident; $($after:expr),*)) => {
        $name(
            $($before,)*
            $areas.pages.0, $areas.pages.1,
            $areas.nodes.0, $areas.nodes.1,
            $areas.register.0, $areas.register.1,
            $($after),*
        )
    };
    ($name:ident($($before:expr),*; seen $areas:ident; $($after:expr),*)) => {
        $name(
            $($before,)*
            $areas.pages.as_ptr(), $areas.pages.len(),
            $areas.nodes.as_ptr(), $areas.nodes.len(),
            $areas.register.as_ptr(), $areas.register.len(),
            $($after),*
        )
    };
}

/// FORMAT.
pub fn format(limits: [u64; 4], areas: RawAreas<'_>) -> FormatReply {
    let [size, pages, nodes, updates] = limits;
    // SAFETY: the areas are as `RawAreas` says; total for any numbers and lengths.
    unsafe { call!(pit_format(size, pages, nodes, updates; lent areas; )) }
}

/// BEGIN.
#[inline]
pub fn begin(s: &State, areas: RawAreas<'_>, n: u64) -> BeginReply {
    // SAFETY: the areas are as `RawAreas` says; total for any store, areas and number.
    unsafe { call!(pit_begin(*s; lent areas; n)) }
}

/// PUT.
#[inline]
pub fn put(s: &State, areas: RawAreas<'_>, ticket: u64, i: u64, bytes: &[u8]) -> u64 {
    // SAFETY: the areas are as `RawAreas` says, and whoever lends them sees to it that `bytes` is no part of them; total for any arguments.
    unsafe { call!(pit_put(*s; lent areas; ticket, i, bytes.as_ptr(), bytes.len())) }
}

/// ASSIGN as a write at page `f`.
#[inline]
pub fn write(s: &State, areas: RawAreas<'_>, line: u64, ticket: u64, f: u64) -> AssignReply {
    // SAFETY: the areas are as `RawAreas` says; total for any store, areas and numbers.
    unsafe { call!(pit_write(*s; lent areas; line, ticket, f)) }
}

/// ASSIGN as an append.
#[inline]
pub fn append(s: &State, areas: RawAreas<'_>, line: u64, ticket: u64) -> AssignReply {
    // SAFETY: the areas are as `RawAreas` says; total for any store, areas and numbers.
    unsafe { call!(pit_append(*s; lent areas; line, ticket)) }
}

/// WEAVE.
#[inline]
pub fn weave(s: &State, areas: RawAreas<'_>, ticket: u64) -> WeaveReply {
    // SAFETY: the areas are as `RawAreas` says; total for any store, areas and number.
    unsafe { call!(pit_weave(*s; lent areas; ticket)) }
}

/// PUBLISH. It only reads the areas.
#[inline]
pub fn publish(s: &State, w: &Windows, areas: Parts<'_>, line: u64, minute: u64) -> PublishReply {
    // SAFETY: the areas are borrowed for the call, which only reads them; total for any store, windows, areas and numbers.
    unsafe { call!(pit_publish(*s, *w; seen areas; line, minute)) }
}

/// SETWINDOWS. It only reads the areas, and the text.
pub fn set_windows(s: &State, w: &Windows, areas: Parts<'_>, text: &[u8]) -> WindowsReply {
    // SAFETY: areas and text are borrowed for the call, which only reads them; total for any store, windows, areas and bytes.
    unsafe { call!(pit_set_windows(*s, *w; seen areas; text.as_ptr(), text.len())) }
}

/// BRANCH. It only reads the areas.
#[inline]
pub fn branch(s: &State, areas: Parts<'_>, line: u64, version: u64) -> BranchReply {
    // SAFETY: the areas are borrowed for the call, which only reads them; total for any store, areas and numbers.
    unsafe { call!(pit_branch(*s; seen areas; line, version)) }
}

/// READ.
#[inline]
pub fn read(s: &State, areas: Parts<'_>, at: [u64; 4], buffer: &mut [u8]) -> u64 {
    let [line, version, offset, len] = at;
    let (to, room) = (buffer.as_mut_ptr(), buffer.len());
    // SAFETY: `buffer` is borrowed mutably, so it is no part of the areas, which are only read; total for any arguments.
    unsafe { call!(pit_read(*s; seen areas; line, version, offset, len, to, room)) }
}

/// SIZE.
#[inline]
pub fn size(s: &State, areas: Parts<'_>, line: u64, version: u64) -> SizeReply {
    // SAFETY: the areas are borrowed for the call, which only reads them; total for any store, areas and numbers.
    unsafe { call!(pit_size(*s; seen areas; line, version)) }
}

/// RECENT.
#[inline]
pub fn recent(s: &State, areas: Parts<'_>, line: u64) -> VersionReply {
    // SAFETY: the areas are borrowed for the call, which only reads them; total for any store, areas and number.
    unsafe { call!(pit_recent(*s; seen areas; line)) }
}

/// STAMP.
#[inline]
pub fn stamp(s: &State, areas: Parts<'_>, line: u64, version: u64, page: u64) -> VersionReply {
    // SAFETY: the areas are borrowed for the call, which only reads them; total for any store, areas and numbers.
    unsafe { call!(pit_stamp(*s; seen areas; line, version, page)) }
}

/// VIEW.
#[inline]
pub fn view(s: &State, areas: Parts<'_>, line: u64, version: u64, page: u64) -> ViewReply {
    // SAFETY: the areas are borrowed for the call, which only reads them; total for any store, areas and numbers.
    unsafe { call!(pit_view(*s; seen areas; line, version, page)) }
}
