//! Where the changes of a store that threads share are kept.

use crate::calls::error::Error;
use crate::calls::windows::WindowsError;
use crate::disk::file::FileError;
use crate::disk::journal::Call;
use crate::failure::Failure;
use crate::shared::image::Image;
use std::error::Error as StdError;

/// Where the changes of a store that threads share are kept: in [`Memory`] alone, or in the journal of a
/// folder: [`InFolder`](crate::InFolder). [`ReadOnly`](crate::ReadOnly) takes none.
///
/// A function over any handle uses `?` into a boxed error, or into a [`Failure`] by way of `Into`:
///
/// ```
/// use pit_host::{Failure, Handle, Limits, Line, Log, PageIndex, Shared, Store, Version};
/// use std::error::Error;
///
/// /// Writes a page, and waits for it to be published.
/// fn write<L: Log>(store: &Handle<L>, page: &[u8]) -> Result<Version, Box<dyn Error + Send + Sync>> {
///     store.set_windows("")?;
///     let version = store.update(Line(0), PageIndex(0), &[page])?;
///     store.wait_published(Line(0), version)?;
///     Ok(version)
/// }
///
/// /// The same, as a failure of this crate.
/// fn append<L: Log>(store: &Handle<L>, page: &[u8]) -> Result<Version, Failure> {
///     store.append_pages(Line(0), &[page]).map_err(Into::into)
/// }
///
/// # fn main() -> Result<(), Box<dyn Error + Send + Sync>> {
/// let shared = Shared::new(Store::format(Limits::new(16, 8, 16, 4))?);
/// assert_eq!(write(&shared, &[1; 16])?, Version(1));
/// assert_eq!(append(&shared, &[2; 16])?, Version(2));
/// assert!(append(&shared, &[3; 15]).is_err());
/// # Ok(())
/// # }
/// ```
pub trait Log: Send + Sync + 'static {
    /// Why a call was not done: refused, or not kept.
    type Failure: From<Error> + Into<Failure> + StdError + Send + Sync + 'static;
    /// The same for SETWINDOWS.
    type WindowsFailure: From<WindowsError>
        + From<Self::Failure>
        + Into<Failure>
        + StdError
        + Send
        + Sync
        + 'static;
    /// What a writer's entries go to, from the first that is taken until they are kept: another may take its place meanwhile.
    #[doc(hidden)]
    type Journal;

    /// Whether there is nothing to wait for: what is taken is kept.
    #[doc(hidden)]
    const AT_ONCE: bool;

    /// Refuses a process that was forked off the one that opened it; asked before any lock is taken, since one that another thread held
    /// is held there for ever.
    #[doc(hidden)]
    fn check_process(&self) -> Result<(), Self::Failure>;

    /// The journal as it is now; asked under the lock of the writers.
    #[doc(hidden)]
    fn journal(&self) -> Self::Journal;

    /// Whether it still takes entries; asked, under the store's lock, before a call is made.
    #[doc(hidden)]
    fn ready(&self, journal: &Self::Journal) -> Result<(), Self::Failure>;

    /// Takes the entry of a call that was just accepted, under the store's lock and so in the order of the calls. It never waits
    /// for a disk. Gives the entry's number.
    #[doc(hidden)]
    fn take(&self, journal: &Self::Journal, call: &Call<'_>) -> u64;

    /// The number of the last entry taken; asked under the store's lock.
    #[doc(hidden)]
    fn last(&self, journal: &Self::Journal) -> u64;

    /// Returns when all entries up to this number are kept, as far as the policy asks for it; `relied_on` where readers see something
    /// new by it, or windows are set. Called without the store's lock. After an error no more entries are taken.
    #[doc(hidden)]
    fn keep(
        &self,
        journal: &Self::Journal,
        number: u64,
        relied_on: bool,
    ) -> Result<(), Self::Failure>;

    /// Why nothing new will be shown to readers, where that is so. Asked by those who wait; they are woken when it may have changed.
    #[doc(hidden)]
    fn check_awaited(&self) -> Result<(), Self::Failure>;

    /// Returns when all entries that were taken are kept for good, whatever the policy. Called without the store's lock.
    #[doc(hidden)]
    fn settle(&self, journal: &Self::Journal) -> Result<(), FileError>;

    /// Returns when this store is kept in place of all that was, while no call is made.
    #[doc(hidden)]
    fn replace(&self, image: &Image) -> Result<(), Self::Failure>;
}

/// Nowhere but in memory: what is not [saved](crate::Handle::save) ends with the process.
#[derive(Clone, Copy, Debug, Default)]
pub struct Memory;

impl Log for Memory {
    type Failure = Error;
    type WindowsFailure = WindowsError;
    type Journal = ();

    const AT_ONCE: bool = true;

    #[inline]
    fn check_process(&self) -> Result<(), Error> {
        Ok(())
    }

    #[inline]
    fn journal(&self) {}

    #[inline]
    fn ready(&self, _: &()) -> Result<(), Error> {
        Ok(())
    }

    #[inline]
    fn take(&self, _: &(), _: &Call<'_>) -> u64 {
        0
    }

    #[inline]
    fn last(&self, _: &()) -> u64 {
        0
    }

    #[inline]
    fn keep(&self, _: &(), _: u64, _: bool) -> Result<(), Error> {
        Ok(())
    }

    fn check_awaited(&self) -> Result<(), Error> {
        Ok(())
    }

    fn settle(&self, _: &()) -> Result<(), FileError> {
        Ok(())
    }

    fn replace(&self, _: &Image) -> Result<(), Error> {
        Ok(())
    }
}
