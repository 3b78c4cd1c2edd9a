//! STAMP of a page that updates have resent unchanged. No other contender has such a call.

use crate::black_box::black_box;
use crate::contenders::ours::Ours;
use crate::contenders::Contender;
use crate::measures::timing::{median, time, ROUNDS};
use crate::random::Random;
use crate::workload::{Shape, Source, MOST};
use pit_host::{Line, PageIndex, Store, Version};

/// The page that is asked for, of the blob's last append.
const PAGE: usize = 4_090;
const BLOB: usize = 4_096;
const FILLING: usize = BLOB / MOST;

/// Of so many updates after the filling, so many have resent the page, spread evenly; the others have written other pages.
#[derive(Clone, Copy, Debug)]
pub struct Setting {
    pub page_size: usize,
    pub updates: usize,
    pub resent: usize,
}

/// The page resent by each update; and by a few of many, which costs as by a few alone.
pub fn settings(page_size: usize) -> Vec<Setting> {
    let numbers = [
        (1, 1),
        (10, 10),
        (100, 100),
        (1_000, 1_000),
        (1_000, 0),
        (1_000, 1),
        (1_000, 10),
        (1_000, 100),
    ];
    let setting = |(updates, resent)| Setting {
        page_size,
        updates,
        resent,
    };
    numbers.map(setting).into()
}

impl Setting {
    /// The blob and all updates.
    pub fn shape(&self) -> Shape {
        Shape {
            page_size: self.page_size,
            blob: BLOB,
            updates: FILLING + self.updates,
        }
    }

    fn store(&self) -> Store {
        let filling = Shape {
            updates: FILLING,
            ..self.shape()
        };
        let source = Source::new(self.page_size);
        let mut ours = Ours::with_room(&filling, self.updates);
        ours.updates(&filling.standing(), &source);
        let page = ours.view(FILLING, PAGE).to_vec();
        let mut random = Random::seeded(6);
        let resent_before = |k: usize| k * self.resent / self.updates;
        for k in 0..self.updates {
            if resent_before(k + 1) > resent_before(k) {
                ours.update(PAGE, &page);
            } else {
                let other = (PAGE + 1 + random.below(BLOB - 1)) % BLOB;
                ours.update(other, source.bytes(k, 1));
            }
        }
        ours.into_store()
    }

    /// Nanoseconds a call, of the page's stamp in the newest version: the median of pieces timed in rounds.
    pub fn time(&self) -> f64 {
        let (store, page) = (self.store(), PageIndex(PAGE as u64));
        let newest = Version((FILLING + self.updates) as u64);
        let calls = (4_096 / (self.resent + 1)).max(1);
        let stamps = || {
            for _ in 0..calls {
                let stamp = store.stamp(Line(0), black_box(newest), page);
                assert_eq!(black_box(stamp), Ok(Version(FILLING as u64)));
            }
        };
        stamps();
        median((0..ROUNDS).map(|_| time(calls, stamps)).collect())
    }
}
