//! What the test programs share: random numbers, folders of a test's own, whole updates; and the calls: each with all that it is given,
//! how it is made, how it is drawn, and the store that it leaves in memory.
#![allow(dead_code)] // each test program uses some of it

pub mod call;
pub mod draw;
pub mod entries;
pub mod folder;
pub mod in_memory;
pub mod process;
pub mod random;
pub mod script;
pub mod updates;
