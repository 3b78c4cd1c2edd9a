//! What a user has beside the library: the tool `pit`, and the commands at the top of the repository.

mod shell;
#[path = "../support/mod.rs"]
mod support;
mod tool;
mod without_libraries;

use support::{folder, random};
