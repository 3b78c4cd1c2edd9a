//! Folders opened after a crash at any step, and after damage. `PIT_SEED` names the seed of what is drawn.

mod checkpoints;
mod closing;
mod damage;
mod earlier;
mod opening;
mod run;
