//! Processes that are killed while they change a store in a folder, at random moments, and power that is cut: what they were
//! answered is there when the folder is opened again, and nothing that was never asked for. `PIT_KILLS` is how many are
//! killed, `PIT_SEED` the first seed.

mod alone;
mod child;
mod crowd;
mod full;
mod held;
mod power;
mod site;

use crate::random::{first_seed, named, ShownSeed};

/// How many processes each of the tests kills where nothing else is said.
const KILLS: u64 = 120;
/// How many of them in a row work in one folder.
const IN_A_FOLDER: u64 = 12;

/// Has processes killed, in one folder after the other, until there are enough. `in_folder` is given a folder's seed, and gives how
/// many were.
fn kill_all(test: &str, mut in_folder: impl FnMut(u64) -> u64) {
    let (first, due) = (first_seed(test), named("PIT_KILLS", KILLS));
    let mut killed = 0;
    for seed in (0..due).map(|at| first.wrapping_add(at)) {
        let _shown = ShownSeed(seed);
        killed += in_folder(seed);
        if killed >= due {
            break;
        }
    }
}
