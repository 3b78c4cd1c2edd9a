//! One error over all those of this crate.

use crate::calls::areas::LimitsError;
use crate::calls::error::Error;
use crate::calls::windows::WindowsError;
use crate::disk::file::FileError;
use std::fmt;

/// Why a call did not do what it should: one error over all others of this crate, so that `?` works in a function that returns
/// it, whatever the function calls.
///
/// ```
/// use pit_host::{Error, Failure, Limits, Store};
/// use std::path::Path;
///
/// /// The model of a new site, with its windows, saved.
/// fn open_site(windows: &str, path: &Path) -> Result<Store, Failure> {
///     let limits = Limits::worst(256, 64, 100, 2)?; // a LimitsError
///     let mut store = Store::format(limits)?; // an Error
///     store.set_windows(windows)?; // a WindowsError
///     store.save(path)?; // a FileError
///     Ok(store)
/// }
///
/// # fn main() -> Result<(), Failure> {
/// # let path = std::env::temp_dir().join(format!("pit-failure-{}", std::process::id()));
/// let store = open_site("600,660\n", &path)?;
/// # std::fs::remove_file(&path).unwrap();
/// assert_eq!(store.windows().list().len(), 1);
///
/// let failure = open_site("660,600,\n", &path).unwrap_err();
/// assert!(matches!(failure, Failure::Windows(_)));
/// assert_eq!(failure.error(), Some(Error::WrongWindow));
/// let failure = open_site("600,660\n", Path::new("no/such/folder/site")).unwrap_err();
/// assert!(matches!(failure, Failure::File(_)));
/// assert_eq!(failure.error(), None);
/// # Ok(())
/// # }
/// ```
///
/// Its words are those of the error that it holds, and so is its source.
#[derive(Debug)]
#[non_exhaustive]
pub enum Failure {
    /// The store refused the call; nothing has changed.
    Refused(Error),
    /// A text of windows was refused; the old ones stand.
    Windows(WindowsError),
    /// A file could not be read or written, or does not hold what it should.
    File(FileError),
    /// Limits are not allowed.
    Limits(LimitsError),
}

impl Failure {
    /// The store's refusal, with its number in the table; none where a file is the reason, or an update that is only planned.
    pub fn error(&self) -> Option<Error> {
        match self {
            Failure::Refused(error) => Some(*error),
            Failure::Windows(refused) => Some(refused.error()),
            Failure::Limits(refused) => refused.error(),
            Failure::File(_) => None,
        }
    }
}

/// From each error the failure that holds it, and back.
macro_rules! holds {
    ($($kind:ident: $error:ty),*) => {
        impl Failure {
            fn held(&self) -> &(dyn std::error::Error + 'static) {
                match self {
                    $(Failure::$kind(error) => error,)*
                }
            }
        }

        $(impl From<$error> for Failure {
            fn from(error: $error) -> Failure {
                Failure::$kind(error)
            }
        })*
    };
}

holds!(Refused: Error, Windows: WindowsError, File: FileError, Limits: LimitsError);

impl fmt::Display for Failure {
    fn fmt(&self, f: &mut fmt::Formatter<'_>) -> fmt::Result {
        fmt::Display::fmt(self.held(), f)
    }
}

impl std::error::Error for Failure {
    fn source(&self) -> Option<&(dyn std::error::Error + 'static)> {
        self.held().source() // what it holds has said its words already
    }
}

#[cfg(test)]
mod tests {
    use super::*;
    use crate::calls::areas::Limits;
    use crate::calls::store::Store;
    use std::error::Error as _;

    /// One failure of each kind, as `?` makes it, with the refusal that it holds.
    fn failures() -> [(Failure, Option<Error>); 5] {
        let limits = Limits::new(16, 4, 8, 2);
        let mut store = Store::format(limits).expect("limits in range");
        let begun = store.begin(65).expect_err("65 pages");
        let windows = store.set_windows("1,1\n").expect_err("equal ends");
        let foreign = FileError::Foreign;
        let capacity = Limits::worst(16, 64, 0, 1).expect_err("no updates");
        let planned = Limits::worst(16, 64, 1, 65).expect_err("65 pages");
        [
            (begun.into(), Some(Error::UpdateSize)),
            (windows.into(), Some(Error::WrongWindow)),
            (foreign.into(), None),
            (capacity.into(), Some(Error::Capacity)),
            (planned.into(), None),
        ]
    }

    #[test]
    fn a_failure_has_the_words_of_what_it_holds() {
        for (failure, refusal) in failures() {
            assert_eq!(failure.error(), refusal);
            assert_eq!(failure.to_string(), failure.held().to_string());
            assert!(failure.source().is_none());
        }
        let missing = std::io::Error::from(std::io::ErrorKind::NotFound);
        let words = missing.to_string();
        let path = "some/file".into();
        let missing = Failure::from(FileError::Io {
            path,
            error: missing,
        });
        assert_eq!(missing.source().map(|e| e.to_string()), Some(words));
    }

    /// It can be handed to another thread, and kept there: as every error of this crate.
    #[test]
    fn a_failure_can_go_to_another_thread() {
        fn sent<T: std::error::Error + Send + Sync + 'static>(_: &T) {}
        failures().iter().for_each(|(failure, _)| sent(failure));
        let boxed: Box<dyn std::error::Error + Send + Sync> = Failure::from(Error::Damaged).into();
        assert!(boxed.downcast_ref::<Failure>().is_some());
    }
}
