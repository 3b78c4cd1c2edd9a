//! A store in a file: everything comes back, every damage is found, and the file is whole at every moment. `PIT_SEED` names
//! the first seed of the tests that draw stores, `PIT_SCENES` how many stores each has.

mod comes_back;
mod damage;
mod drawn;
mod place;
mod scene;
mod whole;

use pit_host::{Error, FileError};

#[test]
fn words_and_causes() {
    use std::error::Error as _;
    let no_disk = || std::io::Error::new(std::io::ErrorKind::Other, "no disk");
    let path = || std::path::PathBuf::from("at/some/path");
    let errors = [
        FileError::Io {
            path: path(),
            error: no_disk(),
        },
        FileError::Foreign,
        FileError::Form(7),
        FileError::Limits(Error::PageSize),
        FileError::AreaLengths,
        FileError::Truncated {
            expected: 128,
            found: 3,
        },
        FileError::TooLong {
            expected: 128,
            found: 300,
        },
        FileError::Checksum,
        FileError::Counters,
        FileError::Windows,
        FileError::Folder {
            path: path(),
            error: no_disk(),
        },
        FileError::FolderMoved,
    ];
    let words: Vec<String> = errors.iter().map(FileError::to_string).collect();
    assert!(words.iter().all(|w| w.len() > 20));
    assert!(
        words[0].ends_with("no disk")
            && words[2].contains("form 7")
            && words[5].contains("3 bytes of 128")
    );
    let of_path = words.iter().filter(|w| w.starts_with("at/some/path: "));
    assert_eq!(of_path.count(), 2);
    let with_cause = errors.iter().filter(|e| e.source().is_some()).count();
    assert_eq!(with_cause, 3);

    // the file of a folder is named once
    let saved = |error| FileError::Saved {
        generation: 2,
        error: Box::new(error),
    };
    assert_eq!(
        saved(FileError::Foreign).to_string(),
        "store-2: the file is no store's: it begins otherwise"
    );
    let unread = saved(FileError::Io {
        path: "at/store-2".into(),
        error: no_disk(),
    });
    let words = "at/store-2: could not be opened, read or written: no disk";
    assert_eq!(unread.to_string(), words);
    assert!(unread.source().is_some());
}
