//! What is measured: times, memory, views by threads, latency beside a save, synced updates, and recovery.

#[allow(unsafe_code)]
pub mod heap;
pub mod latency;
pub mod memory;
pub mod recovery;
mod scratch;
pub mod stamps;
pub mod synced;
pub mod threads;
pub mod timing;
