//! A store kept: in a file, or in a folder with a journal of the calls since it was saved.

mod checksum;
pub mod durable;
pub mod file;
pub mod folder;
pub mod inspect;
pub mod journal;
pub mod read_only;
