//! Why the store refuses a call.

use std::fmt;

/// Why the store refused a call. Each has the number of its row in the table of refusals; a call gives the
/// first row that applies. A refused call has changed nothing.
///
/// ```
/// use pit_host::{Error, Limits, Store};
/// let refused = Store::format(Limits::new(24, 1, 1, 1)).unwrap_err();
/// assert_eq!(refused, Error::PageSize);
/// assert_eq!(refused.number(), 1);
/// assert!(refused.to_string().contains("power of two"));
/// ```
///
/// The table grows with the store, so a `match` has an arm for rows that come later. Without it:
///
/// ```compile_fail,E0004
/// use pit_host::Error::{self, *};
/// fn retry(error: Error) -> bool {
///     match error {
///         NotAllPut | NotPublished | OutOfTurn => true,
///         PageSize | Capacity | AreaLength | UpdateSize | RegisterFull | PagesFull | NoSuchTicket => false,
///         NoSuchPage | AlreadyPut | PageLength | PastEnd | BlobFull | NodesFull => false,
///         OutsideSnapshot | BufferTooShort | Damaged | NoSuchLine | LinesFull => false,
///         NoSuchMinute | WrongWindow | TooManyWindows => false,
///     }
/// }
/// ```
#[derive(Clone, Copy, Debug, PartialEq, Eq, Hash)]
#[non_exhaustive]
pub enum Error {
    /// 1, FORMAT: the page size is not a power of two from 16 to 4,096.
    PageSize = 1,
    /// 2, FORMAT: a capacity is not allowed.
    Capacity = 2,
    /// 3, every call: an area is not as long as the store's capacities say.
    AreaLength = 3,
    /// 4, BEGIN: an update has 1 to 64 pages.
    UpdateSize = 4,
    /// 5, BEGIN: no record of the register is unused.
    RegisterFull = 5,
    /// 6, BEGIN: fewer page numbers are unused than the update has pages.
    PagesFull = 6,
    /// 7, PUT, ASSIGN and WEAVE: no such ticket.
    NoSuchTicket = 7,
    /// 8: PUT or ASSIGN after ASSIGN, or WEAVE before it or with no node left.
    OutOfTurn = 8,
    /// 9, PUT: the update has no such page.
    NoSuchPage = 9,
    /// 10, PUT: that page of the update is already put.
    AlreadyPut = 10,
    /// 11, PUT: the bytes are not one page long.
    PageLength = 11,
    /// 12, ASSIGN: a page of the update is not yet put.
    NotAllPut = 12,
    /// 13, ASSIGN as a write: it begins past the end of the line's last assigned version.
    PastEnd = 13,
    /// 14, ASSIGN: the blob would have more than 4,096 pages.
    BlobFull = 14,
    /// 15, ASSIGN: too few node places are unused.
    NodesFull = 15,
    /// 16, READ, SIZE, STAMP, VIEW and BRANCH: the version is not published on that line.
    NotPublished = 16,
    /// 17, READ, STAMP and VIEW: the range or page is not inside the snapshot.
    OutsideSnapshot = 17,
    /// 18, READ: the buffer is shorter than the length asked for.
    BufferTooShort = 18,
    /// 19, every call but FORMAT, BEGIN, RECENT and SETWINDOWS: the areas are not what a run of calls left.
    Damaged = 19,
    /// 20, every call that names a line: no such line has begun.
    NoSuchLine = 20,
    /// 21, BRANCH: sixteen lines exist.
    LinesFull = 21,
    /// 22, PUBLISH: the minute is above 10,079.
    NoSuchMinute = 22,
    /// 23, SETWINDOWS: a line of the text is malformed, out of range or has equal ends.
    WrongWindow = 23,
    /// 24, SETWINDOWS: there are more than 32 windows.
    TooManyWindows = 24,
}

impl Error {
    /// Every refusal, in the order of their numbers.
    pub const ALL: &'static [Error] = &[
        Error::PageSize,
        Error::Capacity,
        Error::AreaLength,
        Error::UpdateSize,
        Error::RegisterFull,
        Error::PagesFull,
        Error::NoSuchTicket,
        Error::OutOfTurn,
        Error::NoSuchPage,
        Error::AlreadyPut,
        Error::PageLength,
        Error::NotAllPut,
        Error::PastEnd,
        Error::BlobFull,
        Error::NodesFull,
        Error::NotPublished,
        Error::OutsideSnapshot,
        Error::BufferTooShort,
        Error::Damaged,
        Error::NoSuchLine,
        Error::LinesFull,
        Error::NoSuchMinute,
        Error::WrongWindow,
        Error::TooManyWindows,
    ];

    /// The number of its row in the table of refusals, from 1 on.
    pub fn number(&self) -> u64 {
        *self as u64
    }

    /// The refusal with a number of the table; none has another number.
    ///
    /// ```
    /// use pit_host::Error;
    /// assert_eq!(Error::from_number(7), Some(Error::NoSuchTicket));
    /// assert_eq!((Error::from_number(0), Error::from_number(25)), (None, None));
    /// ```
    pub fn from_number(number: u64) -> Option<Error> {
        Error::ALL.iter().copied().find(|e| e.number() == number)
    }

    /// What a call's refusal number says; 0 is acceptance. The proved calls reply with no number that the table lacks. A
    /// library that did would not be the proved one: then nothing it says of the areas can be relied on, so that is
    /// `Damaged`.
    #[inline]
    pub(crate) fn check(refusal: u64) -> Result<(), Error> {
        match refusal {
            0 => Ok(()),
            number => Err(Error::of_refusal(number)),
        }
    }

    #[cold]
    fn of_refusal(number: u64) -> Error {
        Error::from_number(number).unwrap_or(Error::Damaged)
    }

    fn words(&self) -> &'static str {
        match self {
            Error::PageSize => "not formatted: the page size must be a power of two from 16 to 4,096 bytes",
            Error::Capacity => {
                "not formatted: capacities are 1 to 65,535 pages, 1 to 131,072 nodes and 1 to 4,096 updates"
            }
            Error::AreaLength => "refused: an area's length differs from what the store's capacities say",
            Error::UpdateSize => "no ticket given: an update has 1 to 64 pages",
            Error::RegisterFull => "no ticket given: every record of the register is used",
            Error::PagesFull => "no ticket given: too few page numbers are unused",
            Error::NoSuchTicket => "refused: no such ticket was given",
            Error::OutOfTurn => {
                "out of turn: pages are put and a version is assigned while the ticket has none, nodes are woven after that, while some are left"
            }
            Error::NoSuchPage => "page not put: the update has fewer pages",
            Error::AlreadyPut => "page not put: that page of the update is already put",
            Error::PageLength => "page not put: the bytes are not exactly one page long",
            Error::NotAllPut => "no version assigned: a page of the update is not yet put",
            Error::PastEnd => "no version assigned: the write begins past the end of the line's last assigned version",
            Error::BlobFull => "no version assigned: the blob would have more than 4,096 pages",
            Error::NodesFull => "no version assigned: too few node places are unused",
            Error::NotPublished => "refused: that version is not published on that line",
            Error::OutsideSnapshot => "refused: the range or page is not inside that version",
            Error::BufferTooShort => "not read: the buffer is shorter than the length asked for",
            Error::Damaged => "refused: the areas are damaged, no run of calls left them so",
            Error::NoSuchLine => "refused: no such line has begun",
            Error::LinesFull => "no line begun: sixteen lines exist",
            Error::NoSuchMinute => "not published: a week's minutes are 0 to 10,079",
            Error::WrongWindow => "no windows set: some line is not two different minutes of the week, 0 to 10,079, with a comma between them and a line feed after them",
            Error::TooManyWindows => "no windows set: a site has at most 32",
        }
    }
}

impl fmt::Display for Error {
    fn fmt(&self, f: &mut fmt::Formatter<'_>) -> fmt::Result {
        f.write_str(self.words())
    }
}

impl std::error::Error for Error {}

#[cfg(test)]
mod tests {
    use super::*;

    #[test]
    fn every_number_is_read_without_a_panic() {
        assert_eq!(Error::check(0), Ok(()));
        for &error in Error::ALL {
            assert_eq!(Error::check(error.number()), Err(error));
        }
        for unknown in [25, 1 << 32, u64::MAX] {
            assert_eq!(Error::check(unknown), Err(Error::Damaged));
        }
    }
}
