//! `PIT_SEED` names the seed of what is drawn.

mod damage;
mod entries;
pub mod scene;
#[path = "../../../tests/support/mod.rs"]
pub mod support;
mod writing;

pub use support::random;
