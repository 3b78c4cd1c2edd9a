//! A folder's store to read alone.

use crate::disk::file::FileError;
use crate::disk::folder::Opened;
use crate::disk::inspect;
use crate::disk::journal::Call;
use crate::failure::Failure;
use crate::shared::image::Image;
use crate::shared::log::Log;
use crate::shared::{Core, Handle};
use std::path::Path;
use std::sync::Arc;

/// A folder's store, opened to read alone. It has all calls of a [`Handle`]; those that change the store are refused, with
/// [`FileError::ReadOnly`].
///
/// Nothing at all is written, and nothing locked: a folder can be read that is on a full disk or on one that is mounted to be read,
/// whose files nobody may write, or that is [open](crate::Durable) meanwhile, in this process or another one. The store is as it was
/// at one moment of [`open`](Reader::open); what is published later is seen by those who open the folder then.
///
/// ```
/// use pit_host::{Durable, Failure, FileError, Limits, Line, Options, PageIndex, Reader, Store, Version};
/// # fn main() -> Result<(), Failure> {
/// # let place = std::env::temp_dir().join(format!("pit-reader-{}", std::process::id()));
/// # let (folder, file) = (&place.join("folder"), &place.join("file"));
/// let live = Line(0);
/// let durable = Durable::create(folder, Store::format(Limits::new(16, 8, 16, 4))?, Options::new())?;
/// durable.append_pages(live, &[&[1; 16]])?;
///
/// let (reader, opened) = Reader::open(folder)?;
/// assert!(opened.cut.is_none());
/// assert_eq!(reader.recent(live)?, Version(1));
/// assert_eq!(reader.snapshot(live, Version(1))?.view(PageIndex(0))?, [1; 16]);
/// reader.save(file)?; // in another place
///
/// let refused = reader.append_pages(live, &[&[2; 16]]);
/// assert!(matches!(refused, Err(Failure::File(FileError::ReadOnly))));
/// # drop(durable);
/// # std::fs::remove_dir_all(place).unwrap();
/// # Ok(())
/// # }
/// ```
pub type Reader = Handle<ReadOnly>;

/// Nowhere: the store is read alone.
#[derive(Clone, Copy, Debug, Default)]
#[non_exhaustive]
pub struct ReadOnly;

impl Reader {
    /// Opens a folder to read alone: the saved store, with the calls of the journals made again. What is not whole at the last one's
    /// end stays there: [`Opened::cut`] is what [`Durable::open`](crate::Durable::open) would cut off. Where another process has the
    /// folder open, that may be just being written, and a version be there whose writer still waits for the disk.
    ///
    /// Refused as that is, with [`Failure::File`], but never since the folder is open.
    pub fn open(folder: impl AsRef<Path>) -> Result<(Reader, Opened), Failure> {
        let found = inspect::look(folder.as_ref())?;
        let opened = found.opened();
        let reader = Handle {
            core: Arc::new(Core::new(found.store, found.numbers)),
            log: Arc::new(ReadOnly),
        };
        Ok((reader, opened))
    }
}

/// No call gets past `ready`, so that there is nothing to take or keep.
impl Log for ReadOnly {
    type Failure = Failure;
    type WindowsFailure = Failure;
    type Journal = ();

    const AT_ONCE: bool = true;

    /// A forked process reads what its parent does, and nothing is changed.
    fn check_process(&self) -> Result<(), Failure> {
        Ok(())
    }

    fn journal(&self) {}

    fn ready(&self, _: &()) -> Result<(), Failure> {
        Err(FileError::ReadOnly.into())
    }

    fn take(&self, _: &(), _: &Call<'_>) -> u64 {
        0
    }

    fn last(&self, _: &()) -> u64 {
        0
    }

    fn keep(&self, _: &(), _: u64, _: bool) -> Result<(), Failure> {
        Ok(())
    }

    /// Nothing new is ever shown: a version that is not there is not waited for.
    fn check_awaited(&self) -> Result<(), Failure> {
        self.ready(&())
    }

    fn settle(&self, _: &()) -> Result<(), FileError> {
        Ok(())
    }

    fn replace(&self, _: &Image) -> Result<(), Failure> {
        self.ready(&())
    }
}
