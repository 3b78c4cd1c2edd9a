//! A store that threads share: writers beside readers, snapshots, whole updates, stores that are rebuilt under their callers, and all
//! of it at once.

mod differential;
#[allow(dead_code)] // what the step program's lines need
#[path = "../model/mod.rs"]
mod model;
mod rebuild;
mod road;
mod shared;
mod snapshots;
mod soak;
#[path = "../support/mod.rs"]
mod support;
mod whole_updates;

use support::{folder, random, updates};
