//! Stores in files and folders: saved and loaded, kept by journals, cut off, corrupted, and written by processes that are killed.

mod closed;
mod corruption;
mod cuts;
mod durable;
mod files;
mod kept_cuts;
mod kills;
mod lost_journals;
mod no_room;
mod plain_files;
mod recovery;
#[path = "../support/mod.rs"]
mod support;

use support::{folder, random, updates};
