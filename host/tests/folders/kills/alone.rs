//! A process with one thread: the store that it leaves is, to the last byte, the one that its calls leave in memory.

use super::child::{kill, start, KillPoint, Part};
use super::site::{open, report, Report, Site};
use super::{kill_all, power, IN_A_FOLDER};
use crate::random::Random;
use crate::support::call::{make_durable, words};
use crate::support::script::{options, small_store, Script};
use pit_host::{Options, Store, SyncAt};

/// A process makes at most so many calls, and is killed within half of them most often.
const CALLS: u64 = 120;

/// How a folder's store begins, and how it is kept.
fn beginning(seed: u64) -> (Store, Options) {
    let mut random = Random::new(seed);
    (small_store(&mut random), options(&mut random))
}

fn script(part: &Part<'_>) -> Script {
    Script::new(part.seed.wrapping_mul(1_000).wrapping_add(part.run))
}

/// The part of the process that is killed.
pub fn work(part: &Part<'_>) {
    let (store, options) = beginning(part.seed);
    let durable = open(part, store, options);
    report(&durable, "opened");
    let mut script = script(part);
    for _ in 0..CALLS {
        let call = script.next(&durable);
        report(&durable, &words(make_durable(&durable, &call)).unwrap());
    }
}

/// What was found after processes were killed.
#[derive(Debug, Default)]
struct Counts {
    kills: u64,
    power_cuts: u64,
    calls: usize,
    /// Folders with more than one journal; with a saved store half written; with a journal of which something was cut off.
    in_checkpoint: u64,
    half_saved: u64,
    cut: u64,
    /// A call that had not returned was there, whole or in part.
    unreturned: u64,
}

impl Counts {
    fn count_files(&mut self, names: &[String]) {
        let count = |what: &str| names.iter().filter(|name| name.contains(what)).count();
        self.in_checkpoint += u64::from(count("journal-") > 1);
        self.half_saved += u64::from(count(".new") > 0);
    }
}

/// Starts a process, kills it, and looks at what it has left.
fn kill_one(site: &mut Site, run: u64, random: &mut Random, counts: &mut Counts) {
    let part = site.part("alone", run);
    let (said, was_killed) = kill(start(&part, ""), KillPoint::draw(random, CALLS / 2));
    let (mut script, reports) = (script(&part), Report::all(&said));
    counts.kills += u64::from(was_killed);
    counts.count_files(&site.folder.names());
    // only once it has opened the folder: what there was before is synced then, and the model need not go back
    let due = match reports.last() {
        Some(_) if random.one_in(3) => {
            counts.power_cuts += 1;
            let synced = reports.iter().map(|report| report.synced).max();
            let kept = power::cut(&site.folder, synced.unwrap_or(0), random);
            kept.max(due_after_a_power_cut(site.options.sync, &reports))
        }
        last => last.map_or(0, |last| last.written),
    };
    match site.opened() {
        None => assert!(reports.is_empty() && site.model.entries == 0),
        Some((found, opened)) => {
            let entries = found.entries().0;
            assert!(entries >= due, "{entries} of {due} entries");
            let (returned, has_more) = site.follow(&found, &mut script, &reports);
            counts.calls += returned;
            counts.unreturned += u64::from(has_more);
            counts.cut += u64::from(opened.cut.is_some());
        }
    }
}

/// The last entry that must be there after a power cut by the answers alone, whatever was said of syncs.
fn due_after_a_power_cut(sync: SyncAt, reports: &[Report]) -> u64 {
    let shows = |report: &&Report| {
        ["Published(Now(", "Line("]
            .iter()
            .any(|w| report.answer.starts_with(w))
    };
    let last = match sync {
        SyncAt::EachCall => reports.last(),
        SyncAt::EachPublish => reports.iter().rev().find(shows),
        _ => None,
    };
    last.map_or(0, |report| report.written)
}

#[test]
fn a_killed_process_loses_nothing_that_returned() {
    let mut counts = Counts::default();
    kill_all("a_killed_process_loses_nothing_that_returned", |seed| {
        let (store, options) = beginning(seed);
        let mut site = Site::new("kills-alone", seed, store, options);
        let (mut random, before) = (Random::new(!seed), counts.kills);
        for run in 0..IN_A_FOLDER {
            kill_one(&mut site, run, &mut random, &mut counts);
        }
        counts.kills - before
    });
    println!("{counts:?}");
}
