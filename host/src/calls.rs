//! The proved calls from Rust: a store, the areas that it works in, and why a call is refused.

pub mod areas;
pub mod counters;
pub mod difference;
pub mod error;
#[allow(unsafe_code)]
pub mod ffi;
#[allow(unsafe_code)]
pub mod hints;
pub mod read_by_view;
pub mod store;
pub mod windows;
