//! What readers may see: on each line the last version that is published for good.

use crate::calls::counters::{Line, Version};
use crate::calls::ffi::LINES;
use std::sync::atomic::{AtomicU64, AtomicUsize, Ordering::SeqCst};
use std::sync::{Condvar, Mutex, PoisonError};
use std::time::Instant;

/// On memory of its own, so that no writer's lock lies beside what readers look at all the time.
#[derive(Default)]
#[repr(align(128))]
struct Lines([AtomicU64; LINES]);

/// What readers may see of each line.
#[derive(Default)]
pub struct Visible {
    /// One more than the last version that readers may see; 0 where they may not see the line.
    lines: Lines,
    /// How many threads wait for a version.
    waiting: AtomicUsize,
    lock: Mutex<()>,
    raised: Condvar,
}

impl Visible {
    /// The last version that readers may see on a line; none where they may not see it.
    #[inline]
    pub fn last(&self, line: Line) -> Option<Version> {
        let at = usize::try_from(line.0).ok()?;
        self.lines
            .0
            .get(at)?
            .load(SeqCst)
            .checked_sub(1)
            .map(Version)
    }

    /// Readers may see a line up to this version. Those who wait are [told](Visible::notify) after that.
    pub fn raise(&self, line: Line, version: Version) {
        let at = usize::try_from(line.0).ok();
        if let Some(last) = at.and_then(|at| self.lines.0.get(at)) {
            last.fetch_max(version.0 + 1, SeqCst);
        }
    }

    /// Readers may see just these lines, each up to a version. Those who wait are [told](Visible::notify) after that.
    pub fn set(&self, lines: impl Iterator<Item = Version>) {
        let mut lines = lines.map(|version| version.0 + 1);
        for last in &self.lines.0 {
            last.store(lines.next().unwrap_or(0), SeqCst);
        }
    }

    /// Wakes those who wait, after what they may wait for was raised; one who begins to wait now finds it. Called with no lock of the
    /// store held: to wake hundreds takes a while.
    pub fn notify(&self) {
        if self.waiting.load(SeqCst) > 0 {
            let _lock = self.lock.lock().unwrap_or_else(PoisonError::into_inner);
            self.raised.notify_all();
        }
    }

    /// Waits until readers may see a version of a line, or the time has come; tells whether they may. Where they may not, it ends with the
    /// error of `check`, which is asked before each wait, with no lock held but this one's own; and first without that: a process that was
    /// forked off may never get it.
    pub fn wait<E>(
        &self,
        line: Line,
        version: Version,
        until: Option<Instant>,
        check: impl Fn() -> Result<(), E>,
    ) -> Result<bool, E> {
        let is_visible = || self.last(line).map_or(false, |last| last >= version);
        if is_visible() {
            return Ok(true);
        }
        if let (Err(error), false) = (check(), is_visible()) {
            return Err(error);
        }
        self.waiting.fetch_add(1, SeqCst);
        let mut lock = self.lock.lock().unwrap_or_else(PoisonError::into_inner);
        let mut checked = check();
        while checked.is_ok() && !is_visible() {
            lock = match until.map(|until| until.saturating_duration_since(Instant::now())) {
                None => {
                    let woken = self.raised.wait(lock);
                    woken.unwrap_or_else(PoisonError::into_inner)
                }
                Some(left) if left.is_zero() => break,
                Some(left) => {
                    let woken = self.raised.wait_timeout(lock, left);
                    woken.unwrap_or_else(PoisonError::into_inner).0
                }
            };
            checked = check();
        }
        self.waiting.fetch_sub(1, SeqCst);
        match is_visible() {
            true => Ok(true),
            false => checked.map(|()| false),
        }
    }
}

#[cfg(test)]
impl Visible {
    /// The lock of those who wait.
    pub fn held(&self) -> std::sync::MutexGuard<'_, ()> {
        self.lock.lock().unwrap_or_else(PoisonError::into_inner)
    }

    /// How many threads wait for a version.
    pub fn waiting(&self) -> usize {
        let _lock = self.lock.lock().unwrap_or_else(PoisonError::into_inner); // they have given it back: they wait
        self.waiting.load(SeqCst)
    }
}

#[cfg(test)]
mod tests {
    use super::*;

    /// What is raised out of turn is not lowered again.
    #[test]
    fn a_version_that_is_seen_stays_so() {
        let (visible, line) = (Visible::default(), Line(3));
        assert_eq!(visible.last(line), None);
        for (raised, last) in [(0, 0), (5, 5), (3, 5), (6, 6)] {
            visible.raise(line, Version(raised));
            assert_eq!(visible.last(line), Some(Version(last)));
        }
        for line in [0, 2, 4, 15, 16, u64::MAX].map(Line) {
            assert_eq!(visible.last(line), None);
        }
        visible.raise(Line(16), Version(1)); // there is none
        visible.set([2, 0].map(Version).into_iter());
        let lines = [0, 1, 2, 3].map(|line| visible.last(Line(line)));
        assert_eq!(lines, [Some(Version(2)), Some(Version(0)), None, None]);
    }
}
