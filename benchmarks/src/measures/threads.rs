//! Views a second of reader threads, without a writer and beside one: this store by the host's `Shared` and by its snapshots,
//! and LMDB.
//!
//! All trials of a row have the same updates at the same places. A writer that makes them flat out would fill this store within some
//! milliseconds: its register has room for 4,096 updates. So a trial flat out is just the updates that there is room for, at
//! each store's own pace, and ends with the last of them; the store is then put back, which is not timed. Several such trials
//! make one figure: the views of all of them in the time of all of them. LMDB, which never fills, has the same trials.
//! Views count only while the trial's time runs: readers begin before it and end after it.

mod trial;

use crate::contenders::lmdb_pages::LmdbPages;
use crate::contenders::shared::{By, OursShared, Sharing};
use crate::contenders::Contender;
use crate::workload::{Shape, Source};
use std::time::Duration;
use trial::{Counts, Workload};

/// A reader views so many pages of one version, then of the newest.
pub const PAGES_A_VERSION: usize = 16;
/// A paced writer makes so many updates a second, of one page each.
pub const UPDATES_A_SECOND: u32 = 3_600;

/// A trial without a writer, or with a paced one, takes so long.
pub const TRIAL: Duration = Duration::from_millis(100);
/// A trial flat out has so many updates, which with those that stand are most of what the register has room for; a paced one fewer.
pub const UPDATES_A_TRIAL: usize = 3_900;
/// So many trials flat out make one figure.
const TRIALS_FLAT_OUT: usize = 4;
const ROUNDS: usize = 9;

/// Readers by the store, by a snapshot and by a filled one; and LMDB.
pub const CONTENDERS: usize = 4;
pub const FILLED: usize = 2;
pub const LMDB: usize = 3;

/// By what the readers of the contenders before LMDB view.
const BY: [By; LMDB] = [By::Store, By::Snapshot, By::Filled];

/// What the writer does.
#[derive(Clone, Copy, PartialEq, Eq)]
pub enum Writer {
    None,
    Paced,
    FlatOut,
}

/// How many threads read, and whether another writes.
#[derive(Clone, Copy, PartialEq, Eq)]
pub struct Setting {
    pub readers: usize,
    pub writer: Writer,
}

/// Views and updates a second.
#[derive(Clone, Copy)]
pub struct Rates {
    pub views: f64,
    pub updates: f64,
}

/// A row: a setting, with the medians of all contenders.
pub type Row = (Setting, [Rates; CONTENDERS]);

/// The rows of all settings.
pub fn rows(shape: Shape) -> Vec<Row> {
    let mut stores = Stores::new(shape);
    let mut settings = Vec::new();
    for readers in [1, 2] {
        for writer in [Writer::None, Writer::Paced, Writer::FlatOut] {
            let figures = [(); CONTENDERS].map(|()| Vec::new());
            settings.push((Setting { readers, writer }, figures));
        }
    }
    for round in 0..ROUNDS {
        for (setting, figures) in &mut settings {
            for place in 0..CONTENDERS {
                let at = (round + place) % CONTENDERS;
                figures[at].push(stores.figure(at, *setting));
            }
        }
    }
    stores.check();
    let medians = |(setting, figures): (Setting, [Vec<Rates>; CONTENDERS])| {
        let medians = figures.map(median);
        (setting, medians)
    };
    settings.into_iter().map(medians).collect()
}

/// The two stores, holding the same blob.
struct Stores {
    ours: OursShared,
    lmdb: LmdbPages,
    workload: Workload,
}

impl Stores {
    fn new(shape: Shape) -> Stores {
        let source = Source::new(shape.page_size);
        let mut lmdb = LmdbPages::new(&shape);
        lmdb.updates(&shape.standing(), &source);
        let mut stores = Stores {
            ours: OursShared::new(&shape, &source),
            lmdb,
            workload: Workload {
                shape,
                source,
                updates: shape.random_updates(9, UPDATES_A_TRIAL, 1),
            },
        };
        stores.check();
        stores
    }

    /// One figure of a contender.
    fn figure(&mut self, at: usize, setting: Setting) -> Rates {
        let trials = match setting.writer {
            Writer::FlatOut => TRIALS_FLAT_OUT,
            Writer::None | Writer::Paced => 1,
        };
        let mut counts = Counts::default();
        for _ in 0..trials {
            counts += self.trial(at, setting);
        }
        Rates {
            views: counts.views as f64 / counts.seconds,
            updates: counts.updates as f64 / counts.seconds,
        }
    }

    fn trial(&mut self, at: usize, setting: Setting) -> Counts {
        if at == LMDB {
            return self.workload.run(&self.lmdb.shared(), setting);
        }
        self.ours.begin_anew();
        let ours = self.ours.read_by(BY[at]);
        self.workload.run(&ours, setting)
    }

    /// Both give the same bytes: after the updates that stand, and after those of a trial.
    fn check(&mut self) {
        let pages = self.workload.shape.blob;
        let right = self.lmdb.shared().copied(pages);
        for by in BY {
            let is_right = self.ours.read_by(by).copied(pages) == right;
            assert!(is_right, "both stores hold the same pages");
        }
    }
}

/// By views; the updates are those of the same trials.
fn median(mut rates: Vec<Rates>) -> Rates {
    rates.sort_by(|one, other| one.views.total_cmp(&other.views));
    rates[rates.len() / 2]
}
