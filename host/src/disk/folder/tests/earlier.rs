use super::run::{names, Run, Scratch};
use crate::calls::areas::Storage;
use crate::calls::difference::Difference;
use crate::calls::store::Store;
use crate::disk::folder::{earlier, Comparison, Earlier};
use crate::disk::journal::tests::random::first_seed;
use crate::disk::journal::tests::support::call::Begin;
use std::fs;

/// A run with a checkpoint that was broken off before it removed what went before: a store was saved, this one by the run's.
fn broken_off(scratch: &Scratch, seed: u64, saved: impl FnOnce(&Store) -> Store) -> Run {
    let mut run = Run::create(&scratch.file(&seed.to_string()), seed);
    run.calls(60);
    run.folder.begin_generation().unwrap();
    run.folder.switch().unwrap();
    let place = run.folder.settle().unwrap();
    saved(&run.store).save_at(&place).unwrap();
    assert_eq!(
        names(&run.folder.path),
        ["journal-1", "journal-2", "lock", "store-1", "store-2"]
    );
    run
}

fn compared(run: &Run) -> Comparison {
    let left = earlier(&run.folder.path).unwrap();
    match &left[..] {
        [Earlier {
            generation: 1,
            next: 2,
            comparison,
            ..
        }] => *comparison,
        _ => panic!("{left:?}"),
    }
}

#[test]
fn an_earlier_store_and_its_calls_make_the_later_one() {
    let scratch = Scratch::new("earlier");
    let first = first_seed("an_earlier_store_and_its_calls_make_the_later_one");
    for seed in first..first + 10 {
        let mut run = broken_off(&scratch, seed, Store::clone);
        assert_eq!(compared(&run), Comparison::Same, "PIT_SEED={seed}");
        run.calls(20);
        assert_eq!(compared(&run), Comparison::Same, "PIT_SEED={seed}");
        let left = earlier(&run.folder.path).unwrap();
        assert!(left[0].entries > 0);
        run.folder.end_generation().unwrap();
        assert_eq!(earlier(&run.folder.path).unwrap(), []);
    }
}

/// A store saved in the later one's place that the calls do not make.
#[test]
fn another_store_is_seen() {
    let scratch = Scratch::new("earlier-other");
    let windows = |store: &Store| {
        let mut other = store.clone();
        other.windows_are("7,8\n");
        other
    };
    let run = broken_off(&scratch, 1, windows);
    assert_eq!(compared(&run), Comparison::Differs(Difference::Windows));
    let nodes = |store: &Store| {
        let (state, windows, mut areas) = store.clone().into_parts();
        areas.parts_mut().nodes[3] ^= 1;
        Store::resume(state, windows, areas)
    };
    let run = broken_off(&scratch, 2, nodes);
    assert_eq!(compared(&run), Comparison::Differs(Difference::Node(1)));

    fs::remove_file(run.folder.path.join("journal-1")).unwrap();
    assert_eq!(compared(&run), Comparison::NoJournal(1));
}
