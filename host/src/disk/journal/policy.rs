//! What is synced to the disk when.

use std::time::Duration;

/// What is synced to the disk when. Whatever the choice, a call returns only when its entry is written to the journal's
/// file: a process that dies loses nothing of what returned. A power cut loses what was not synced, and never something
/// earlier than what it leaves.
///
/// ```
/// assert_eq!(pit_host::SyncAt::default(), pit_host::SyncAt::EachPublish);
/// ```
#[derive(Clone, Copy, Debug, Default, PartialEq, Eq)]
#[non_exhaustive]
pub enum SyncAt {
    /// Each call, before it returns.
    EachCall,
    /// Each call that shows readers something new, PUBLISH and BRANCH, and SETWINDOWS, before it returns: with everything before it.
    #[default]
    EachPublish,
    /// No call waits for its own sync: what is written is synced at the latest that much later, in the background.
    Every(Duration),
}

impl SyncAt {
    /// Whether a call waits until it is synced.
    pub(super) fn waits(self, relied_on: bool) -> bool {
        match self {
            SyncAt::EachCall => true,
            SyncAt::EachPublish => relied_on,
            SyncAt::Every(_) => false,
        }
    }
}
