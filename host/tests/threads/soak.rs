//! A store shared by 40 writers, 18 planners, who each begin a line while the others write, a blaster, who sets a window and
//! takes it away again, and 200 readers; some of those who write die in the middle of an update. All that they were answered
//! is compared with the plain model of documents 01 and 02. `PIT_SEED` names the first seed.

mod readers;
mod verdict;
mod writers;

use crate::random::{first_seed, Random};
use crate::support::call::{Begin, Call};
use pit_host::{Limits, Minute, Shared, Store};
use readers::{Answered, Reader};
use std::collections::BTreeSet;
use std::panic::resume_unwind;
use std::sync::mpsc::{channel, Receiver, Sender};
use std::sync::{Mutex, RwLock};
use std::thread;
use std::time::Duration;
use writers::{deaths, Death, Log, Writer};

const SEEDS: u64 = 3;
const WRITERS: usize = 40;
/// More than there are lines to begin.
const PLANNERS: usize = 18;
const READERS: usize = 200;

/// How many updates a writer makes, and a planner, and how many reads a reader makes beside them.
const UPDATES: u64 = 8;
const PLANS: u64 = 4;
const READS: u64 = 20;

/// How many writers die, and how many planners; and of the versions that they leave unfinished, how many are finished by
/// somebody else.
const DYING: usize = 14;
const DYING_PLANNERS: usize = 5;
const FINISHED: usize = 4;

const PAGE_SIZE: u64 = 64;
/// An update has at most so many pages. The first, before the writers come, has just as many.
const MOST: u64 = 4;
/// The areas have room for a blob of so many pages, which is far more than the appends reach.
const BLOB: u64 = 512;

/// The blaster's window, and a minute inside. Minute 0 is outside.
const WINDOW: &str = "600,660\n";
const FIRED: Minute = Minute(659);

/// All who write.
const CREWS: usize = WRITERS + PLANNERS;

/// Says that one of them has ended, also by a panic.
struct Ended(usize, Sender<usize>);

impl Drop for Ended {
    fn drop(&mut self) {
        let _ = self.1.send(self.0); // if somebody still listens
    }
}

/// What the threads share.
struct Site {
    shared: Shared,
    /// The writers', the planners', and that of whoever is there before and after them.
    logs: Vec<Mutex<Log>>,
    /// The first writers' and planners' deaths.
    deaths: Vec<Option<Death>>,
    /// Held for writing until all threads are there.
    gathering: RwLock<()>,
    /// Held for writing as long as anybody writes.
    writing: RwLock<()>,
}

impl Site {
    /// A store with one version.
    fn new(random: &mut Random) -> Site {
        let updates = 1 + WRITERS as u64 * UPDATES + PLANNERS as u64 * PLANS;
        let limits = Limits::worst(PAGE_SIZE, BLOB, updates, MOST).expect("within the limits");
        let of_writers = deaths(random, DYING, UPDATES).into_iter().map(Some);
        let of_planners = deaths(random, DYING_PLANNERS, PLANS).into_iter().map(Some);
        let mut deaths: Vec<_> = of_writers.collect();
        deaths.resize(WRITERS, None);
        deaths.extend(of_planners);
        deaths.resize(CREWS, None);
        let site = Site {
            shared: Shared::new(Store::format(limits).expect("within the limits")),
            logs: (0..=CREWS).map(|_| Mutex::default()).collect(),
            deaths,
            gathering: RwLock::new(()),
            writing: RwLock::new(()),
        };
        site.writer(CREWS, Random::new(random.next()))
            .first_update(MOST);
        site
    }

    fn writer(&self, number: usize, random: Random) -> Writer<'_> {
        Writer::new(&self.shared, &self.logs[number], random)
    }

    /// Starts all threads, waits for their end, and gives what the readers were answered.
    fn run(&self, random: &mut Random) -> Vec<(Call, Answered)> {
        thread::scope(|threads| {
            let (gathering, writing) = (self.gathering.write(), self.writing.write());
            let (sender, ended) = channel();
            let crews = (0..CREWS).map(|number| {
                let (ended, random) = (Ended(number, sender.clone()), Random::new(random.next()));
                threads.spawn(move || self.write(ended, random))
            });
            let crews: Vec<_> = crews.collect();
            drop(sender);
            let trucks = (0..READERS).map(|_| {
                let random = Random::new(random.next());
                threads.spawn(move || self.read(random))
            });
            let trucks: Vec<_> = trucks.collect();
            threads.spawn(|| self.fire());
            self.shared.windows_are(WINDOW); // whichever thread comes first finds it
            drop(gathering);
            self.finish_some(ended);
            drop(writing);
            for (number, crew) in crews.into_iter().enumerate() {
                let death = self.deaths[number];
                let planned = death.map_or(false, |death| death.by_panic);
                assert_eq!(crew.join().is_err(), planned, "{death:?}");
            }
            let answers = trucks.into_iter().map(|truck| truck.join());
            let answers = answers.map(|answers| answers.unwrap_or_else(|e| resume_unwind(e)));
            answers.flatten().collect()
        })
    }

    fn write(&self, ended: Ended, random: Random) {
        drop(self.gathering.read());
        let (writer, death) = (self.writer(ended.0, random), self.deaths[ended.0]);
        if ended.0 < WRITERS {
            writer.work(UPDATES, MOST, death);
        } else {
            writer.plan().work(PLANS, MOST, death);
        }
    }

    fn read(&self, random: Random) -> Vec<(Call, Answered)> {
        drop(self.gathering.read());
        Reader::new(&self.shared, random).ride(READS, &self.writing)
    }

    /// Takes the window away and sets it again, as long as anybody writes.
    fn fire(&self) {
        drop(self.gathering.read());
        while self.writing.try_read().is_err() {
            for list in ["", WINDOW] {
                thread::sleep(Duration::from_millis(1));
                self.shared.windows_are(list);
            }
        }
        self.shared.windows_are("");
    }

    /// As writers end, finishes the first versions that are left unfinished.
    fn finish_some(&self, ended: Receiver<usize>) {
        let mut finished = 0;
        for number in ended {
            if finished < FINISHED && self.writer(number, Random::new(0)).finish() {
                finished += 1;
            }
        }
    }

    /// Compares all that was answered with the model. Gives how many versions are published, of all lines.
    fn judge(&self, answers: &[(Call, Answered)]) -> usize {
        let logs: Vec<_> = self.logs.iter().map(|log| log.lock().unwrap()).collect();
        let logs: Vec<&Log> = logs.iter().map(|log| &**log).collect();
        let model = verdict::replayed(self.shared.to_store().limits(), &logs);
        verdict::published(&self.shared, &model, &logs);
        let snapshots = verdict::snapshots(&model);
        for (asked, answer) in answers {
            assert_eq!(*answer, verdict::due(&snapshots, asked), "{asked:?}");
        }
        verdict::compare_all(&self.shared, &snapshots);
        assert_eq!(snapshots.len(), 16, "lines");
        let resent = verdict::resent(&model, &snapshots);
        assert!(resent > 50, "{resent} stamps of resent pages");
        snapshots.iter().map(Vec::len).sum()
    }
}

/// One run: the writers and readers, the verdict, and once more when all that the dead have left is finished.
fn soak(seed: u64) {
    let random = &mut Random::new(seed);
    let site = Site::new(random);
    let answers = site.run(random);
    site.writer(CREWS, Random::new(0)).publish_all();
    let reached = site.judge(&answers);

    for number in 0..CREWS {
        site.writer(number, Random::new(0)).finish();
    }
    let all = site.judge(&answers);
    let read = answers.iter().map(|(asked, _)| asked.version());
    let (read, calls) = (read.collect::<BTreeSet<_>>().len(), answers.len());
    let held = site.logs.iter().map(|log| log.lock().unwrap().held);
    let held: u64 = held.sum();
    println!("{reached} of {all} versions published, {held} calls held; {calls} calls read {read}");
    assert!(reached < all && 4 * read > reached && held > 0);
}

#[test]
fn forty_writers_eighteen_planners_and_two_hundred_readers() {
    let first = first_seed("forty_writers_eighteen_planners_and_two_hundred_readers");
    for seed in (0..SEEDS).map(|i| first.wrapping_add(i)) {
        println!("PIT_SEED={seed}");
        soak(seed);
    }
}
