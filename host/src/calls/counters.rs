//! The six sorts of counters. None of them passes for another.

use std::fmt;
use std::time::{SystemTime, UNIX_EPOCH};

macro_rules! counter {
    ($(#[$about:meta])* $name:ident) => {
        $(#[$about])*
        #[derive(Clone, Copy, Debug, Default, PartialEq, Eq, PartialOrd, Ord, Hash)]
        pub struct $name(pub u64);

        impl fmt::Display for $name {
            fn fmt(&self, f: &mut fmt::Formatter<'_>) -> fmt::Result {
                self.0.fmt(f)
            }
        }
    };
}

counter! {
    /// The number of a snapshot of the blob on a [`Line`]. Version 0 is empty and always published; updates make 1, 2 and
    /// so on.
    ///
    /// ```
    /// use pit_host::Version;
    /// assert!(Version(1) < Version(2));
    /// assert_eq!(format!("version {:>3}", Version(7)), "version   7");
    /// ```
    Version
}

counter! {
    /// The place of a page in the blob, from 0.
    ///
    /// A version does not pass for a page index:
    ///
    /// ```compile_fail
    /// use pit_host::{PageIndex, Version};
    /// let page: PageIndex = Version(3);
    /// ```
    PageIndex
}

counter! {
    /// The place of a byte in the blob, from 0.
    ByteOffset
}

counter! {
    /// The number of an update in work, from 1, never given again.
    Ticket
}

counter! {
    /// A line of versions, counted from 0 in the order in which they begin. Line 0 begins with the store, every other by
    /// [`branch`](crate::Store::branch).
    Line
}

counter! {
    /// A minute of the week, 0 to 10,079, by which [`publish`](crate::Store::publish) knows whether a window is open.
    ///
    /// With which day a week begins is the site's choice: its windows and the minutes that its host gives are counted from
    /// the same one. [`Minute::of`] counts from Monday.
    Minute
}

/// The minutes of a week.
const WEEK: i128 = 7 * 24 * 60;
/// The minute of the week, from Monday on, with which the system's time begins: 1970-01-01 was a Thursday.
const FIRST: i128 = 3 * 24 * 60;
const NANOSECONDS_A_MINUTE: i128 = 60_000_000_000;

impl Minute {
    /// The minute of the week from Monday 00:00 on, by a clock that many minutes ahead of UTC (behind it, where that is
    /// below 0).
    ///
    /// ```
    /// use pit_host::Minute;
    /// use std::time::{Duration, UNIX_EPOCH};
    /// let noon = UNIX_EPOCH + Duration::from_secs(1_775_044_800); // Wednesday, 2026-04-01, 12:00 UTC
    /// assert_eq!(Minute::of(noon, 0), Minute((2 * 24 + 12) * 60));
    /// assert_eq!(Minute::of(noon, 570), Minute((2 * 24 + 21) * 60 + 30)); // in Adelaide
    /// ```
    pub fn of(time: SystemTime, ahead_of_utc: i32) -> Minute {
        // at most 2^64 seconds either way
        let nanoseconds = match time.duration_since(UNIX_EPOCH) {
            Ok(after) => after.as_nanos() as i128,
            Err(before) => -(before.duration().as_nanos() as i128),
        };
        let minutes = nanoseconds.div_euclid(NANOSECONDS_A_MINUTE);
        let of_week = (FIRST + minutes + i128::from(ahead_of_utc)).rem_euclid(WEEK);
        Minute(of_week as u64)
    }

    /// Whether a week has it.
    pub(crate) fn is_of_week(self) -> bool {
        i128::from(self.0) < WEEK
    }
}

/// How many versions a line has room for in a [`LineVersion`].
const VERSIONS_A_LINE: u64 = 65_536;

/// A version with its line in one number, line × 65,536 + version, as the nodes of the tree have it: of the line on which
/// the update got its version, whichever line reads it. 0 is no version.
///
/// ```
/// use pit_host::{Line, LineVersion, Version};
/// let second = LineVersion::new(Line(3), Version(2));
/// assert_eq!(second, LineVersion(3 * 65_536 + 2));
/// assert_eq!((second.line(), second.version()), (Line(3), Version(2)));
/// assert_eq!(second.to_string(), "3/2");
/// ```
#[derive(Clone, Copy, Debug, Default, PartialEq, Eq, Hash)]
pub struct LineVersion(pub u64);

impl LineVersion {
    /// The number of a version of a line. A line counts to 15 and a version to 4,096, so no two have the same.
    pub fn new(line: Line, version: Version) -> LineVersion {
        LineVersion(line.0.wrapping_mul(VERSIONS_A_LINE).wrapping_add(version.0))
    }

    /// The line.
    pub fn line(self) -> Line {
        Line(self.0 / VERSIONS_A_LINE)
    }

    /// The version.
    pub fn version(self) -> Version {
        Version(self.0 % VERSIONS_A_LINE)
    }
}

impl fmt::Display for LineVersion {
    fn fmt(&self, f: &mut fmt::Formatter<'_>) -> fmt::Result {
        write!(f, "{}/{}", self.line(), self.version())
    }
}
