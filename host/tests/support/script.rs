//! Calls on a store in a folder, drawn from a seed, and how such a store is kept.

use super::call::Call;
use super::draw::{draw, Mix, Shown, CALLS, WITH_FILES};
use super::random::Random;
use pit_host::{Handle, Limits, Log, Options, Store, SyncAt};
use std::time::Duration;

/// How a test's store is kept: random, with checkpoints often.
pub fn options(random: &mut Random) -> Options {
    let every = |millis| SyncAt::Every(Duration::from_millis(millis));
    let sync = [SyncAt::EachCall, SyncAt::EachPublish, every(1), every(5)];
    let checkpoint_at = random.pick(&[1_500, 4_000, 16_000]);
    Options::new()
        .sync(random.pick(&sync))
        .checkpoint_at(checkpoint_at)
}

/// An empty store with room for a few dozen updates.
pub fn small_store(random: &mut Random) -> Store {
    let page_size = random.pick(&[16, 32, 64]);
    let [pages, nodes, updates] = [100, 400, 40].map(|most| most / 2 + random.below(most));
    Store::format(Limits::new(page_size, pages, nodes, updates)).unwrap()
}

/// Calls drawn from a seed and the store as they find it.
pub struct Script {
    random: Random,
    mix: Mix,
}

impl Script {
    /// Stores are saved and rebuilt in between.
    pub fn new(seed: u64) -> Script {
        Script {
            random: Random::new(seed),
            mix: WITH_FILES,
        }
    }

    /// Nothing but the journal is written.
    pub fn without_files(seed: u64) -> Script {
        Script {
            mix: CALLS,
            ..Script::new(seed)
        }
    }

    pub fn next<L: Log>(&mut self, store: &Handle<L>) -> Call {
        draw(&mut self.random, &Shown::of_handle(store), &self.mix)
    }
}
