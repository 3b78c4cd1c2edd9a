//! Why limits are not allowed.

use super::limits::Planned;
use crate::calls::error::Error;
use std::fmt;

/// Why limits are not allowed, in numbers.
///
/// ```
/// use pit_host::{Error, Limits, LimitsError, WrongUpdate};
/// let refused = Limits::worst(256, 64, 100, 65).unwrap_err();
/// assert!(matches!(refused, LimitsError::Update { wrong: WrongUpdate::TooManyPages, .. }));
/// assert_eq!(refused.to_string(), "limits not allowed: each update has 65 pages, and an update has 1 to 64");
/// assert_eq!(refused.error(), None); // FORMAT hears of no updates
///
/// let refused = Limits::worst(24, 64, 100, 2).unwrap_err();
/// assert_eq!(refused, LimitsError::PageSize { asked: 24 });
/// assert_eq!(refused.error(), Some(Error::PageSize));
/// ```
#[derive(Clone, Copy, Debug, PartialEq, Eq, Hash)]
#[non_exhaustive]
pub enum LimitsError {
    /// The page size is not a power of two from 16 to 4,096.
    PageSize {
        /// The page size in bytes.
        asked: u64,
    },
    /// A capacity is 0, or more than a store can have.
    Capacity {
        /// Which one.
        of: Capacity,
        /// How much of it is asked for.
        asked: u64,
        /// The most that a store can have.
        most: u64,
    },
    /// An update is planned that no store takes.
    Update {
        /// Which of the list it is, from 1; none where all are planned alike, by [`Limits::worst`](crate::Limits::worst).
        number: Option<u64>,
        /// The update.
        planned: Planned,
        /// What is wrong with it.
        wrong: WrongUpdate,
    },
}

/// One of the three capacities of a store.
#[derive(Clone, Copy, Debug, PartialEq, Eq, Hash)]
#[non_exhaustive]
pub enum Capacity {
    /// The pages, over all updates.
    Pages,
    /// The tree nodes, over all updates.
    Nodes,
    /// The updates.
    Updates,
}

/// What is wrong with an update that is planned.
#[derive(Clone, Copy, Debug, PartialEq, Eq, Hash)]
#[non_exhaustive]
pub enum WrongUpdate {
    /// It has no pages.
    NoPages,
    /// It has more than 64 pages.
    TooManyPages,
    /// The blob would have more than 4,096 pages after it.
    BlobTooLarge,
    /// Its last page is past the end that the blob is to have after it.
    PastEnd,
}

impl Capacity {
    /// The most that FORMAT accepts; the least is 1.
    pub fn most(self) -> u64 {
        match self {
            Capacity::Pages => 65_535,
            Capacity::Nodes => 131_072,
            Capacity::Updates => 4_096,
        }
    }
}

impl LimitsError {
    /// FORMAT's refusal of such limits. None where it is a planned update that is wrong, of which FORMAT does not hear.
    pub fn error(&self) -> Option<Error> {
        match self {
            LimitsError::PageSize { .. } => Some(Error::PageSize),
            LimitsError::Capacity { .. } => Some(Error::Capacity),
            LimitsError::Update { .. } => None,
        }
    }
}

impl fmt::Display for Capacity {
    fn fmt(&self, f: &mut fmt::Formatter<'_>) -> fmt::Result {
        f.write_str(match self {
            Capacity::Pages => "pages",
            Capacity::Nodes => "nodes",
            Capacity::Updates => "updates",
        })
    }
}

impl fmt::Display for LimitsError {
    fn fmt(&self, f: &mut fmt::Formatter<'_>) -> fmt::Result {
        f.write_str("limits not allowed: ")?;
        match self {
            LimitsError::PageSize { asked } => {
                let asked = Grouped(*asked);
                write!(
                    f,
                    "the page size is {asked} bytes, and must be a power of two from 16 to 4,096"
                )
            }
            LimitsError::Capacity { of, asked, most } => {
                let (asked, most) = (Grouped(*asked), Grouped(*most));
                write!(f, "asked for {asked} {of}, and a store has 1 to {most}")
            }
            LimitsError::Update {
                number,
                planned,
                wrong,
            } => {
                match number {
                    Some(number) => write!(f, "planned update {} ", Grouped(*number))?,
                    None => f.write_str("each update ")?,
                }
                wrong.describe(planned, f)
            }
        }
    }
}

impl WrongUpdate {
    /// What is wrong with the update, after the words that name it.
    fn describe(self, update: &Planned, f: &mut fmt::Formatter<'_>) -> fmt::Result {
        let (first, pages) = (update.first.0, update.pages);
        let last = first.saturating_add(pages.saturating_sub(1));
        let [last, pages, size] = [last, pages, update.size_after].map(Grouped);
        match self {
            WrongUpdate::NoPages => f.write_str("has no pages, and an update has 1 to 64"),
            WrongUpdate::TooManyPages => write!(f, "has {pages} pages, and an update has 1 to 64"),
            WrongUpdate::BlobTooLarge => write!(
                f,
                "leaves a blob of {size} pages, and one has at most 4,096"
            ),
            WrongUpdate::PastEnd => write!(
                f,
                "ends with page {last}, counted from 0, and the blob's size after it is {size}"
            ),
        }
    }
}

impl std::error::Error for LimitsError {}

/// A number written with a comma before every three digits, as the words of a refusal have it.
struct Grouped(u64);

impl fmt::Display for Grouped {
    fn fmt(&self, f: &mut fmt::Formatter<'_>) -> fmt::Result {
        match self.0 {
            below @ 0..=999 => write!(f, "{below}"),
            number => write!(f, "{},{:03}", Grouped(number / 1_000), number % 1_000),
        }
    }
}
