//! The calls one by one: the table of refusals, the limits and sizes, stamps, windows, lines beside each other, areas of all kinds,
//! and the C header.

#[path = "../model/trees.rs"]
mod trees;

mod header;
mod isolation;
mod limits;
mod lines;
mod refusals;
mod sizing;
mod stamps;
mod store;
#[path = "../support/mod.rs"]
mod support;
mod windows;
mod worst;

use support::{random, updates};
