//! States, windows and areas that no run of calls left: every call ends, stays inside the memory it is lent, refuses by the
//! table, and changes nothing when it refuses. `PIT_SEED` names the first seed, `PIT_SCENES` how many scenes each test has;
//! with the seed of a scene that failed, it comes first.

mod calls;
mod drawn;
mod lower_walks;
mod memory;
mod scene;
mod shared;
mod stamps;
#[path = "../support/mod.rs"]
mod support;
#[path = "../model/windows.rs"]
mod windows;

use calls::{FIND_DAMAGE, LAST_ROWS, NAME_LINES, OTHERS};
use pit_host::{Line, PageIndex, Version};
use random::{first_seed, named, Random};
use scene::Scene;
use std::collections::BTreeMap;
use support::call::Call;
use support::{folder, random};

/// How many scenes each test has, and how many calls a scene.
const SCENES: u64 = 1_500;
const CALLS: u64 = 40;

/// How often each call answered with each number, 0 for acceptance; and how often the search of STAMP ended in each way.
type Answers = BTreeMap<(&'static str, u64), u64>;

/// Makes random calls on random scenes, and complains of the first that does what it must not.
fn try_all(test: &str, draw: fn(&mut Random) -> Scene) -> Answers {
    let (first, mut answers) = (first_seed(test), Answers::new());
    for seed in (0..named("PIT_SCENES", SCENES)).map(|i| first.wrapping_add(i)) {
        let mut random = Random::new(seed);
        let mut scene = draw(&mut random);
        for at in 0..CALLS {
            let (state, windows) = (scene.state, scene.windows);
            let call = calls::draw(&mut random, &scene);
            match scene.make(&call) {
                Ok(refusal) => {
                    *answers.entry((call.name(), refusal)).or_default() += 1;
                    if let Call::Stamp(line, v, page) = call {
                        let end = stamps::stamp(&scene, line.0, v.0, page.0).end;
                        *answers.entry((end, 0)).or_default() += 1;
                    }
                }
                Err(complaint) => {
                    panic!("{complaint}\nPIT_SEED={seed}, call {at}: {call:?}\non {state:?}, {windows:?}")
                }
            }
        }
    }
    println!("{answers:?}");
    answers
}

/// Each of these calls answered with this number, in as many scenes as usual.
fn came(answers: &Answers, number: u64, calls: &[&'static str]) {
    let missing = calls
        .iter()
        .filter(|call| !answers.contains_key(&(call, number)));
    let missing: Vec<_> = missing.collect();
    let fewer = named("PIT_SCENES", SCENES) < SCENES;
    assert!(fewer || missing.is_empty(), "{number} of {missing:?}");
}

#[test]
fn random_areas_and_a_random_state() {
    let answers = try_all("random_areas_and_a_random_state", drawn::random_scene);
    came(&answers, 3, &FIND_DAMAGE);
    came(&answers, 3, &OTHERS);
}

#[test]
fn random_areas_of_the_lengths_that_the_state_says() {
    let test = "random_areas_of_the_lengths_that_the_state_says";
    let answers = try_all(test, drawn::fitting_scene);
    came(&answers, 0, &FIND_DAMAGE);
    came(&answers, 0, &OTHERS);
    came(&answers, 19, &FIND_DAMAGE);
    came(&answers, 20, &NAME_LINES);
    for (row, call) in LAST_ROWS {
        came(&answers, row, &[call]);
    }
}

#[test]
fn a_number_changed_in_a_valid_store() {
    let answers = try_all("a_number_changed_in_a_valid_store", drawn::changed_scene);
    came(&answers, 0, &FIND_DAMAGE);
    came(&answers, 0, &OTHERS);
    came(&answers, 19, &["PUT", "WEAVE", "READ", "STAMP", "VIEW"]);
    came(&answers, 20, &NAME_LINES);
}

#[test]
fn an_area_cut_off_or_longer() {
    let answers = try_all("an_area_cut_off_or_longer", drawn::cut_scene);
    came(&answers, 3, &FIND_DAMAGE);
    came(&answers, 3, &OTHERS);
    came(&answers, 19, &["PUT", "WEAVE", "READ", "STAMP", "VIEW"]);
}

#[test]
fn the_areas_of_several_stores() {
    let answers = try_all("the_areas_of_several_stores", drawn::mixed_scene);
    came(&answers, 0, &FIND_DAMAGE);
    came(&answers, 19, &["READ", "STAMP", "VIEW"]);
}

/// All of these scenes in a store that threads share.
#[test]
fn stores_that_threads_share() {
    let draws: [fn(&mut Random) -> Scene; 6] = [
        drawn::random_scene,
        drawn::fitting_scene,
        drawn::changed_scene,
        drawn::cut_scene,
        drawn::mixed_scene,
        drawn::resent_scene,
    ];
    let folder = folder::Folder::new("arbitrary");
    let file = folder.0.join("store");
    random::scenes("stores_that_threads_share", SCENES / 2, |mut random| {
        let mut scene = random.pick(&draws)(&mut random);
        if random.one_in(3) {
            shared::overlap(&mut random, &mut scene);
        }
        shared::try_scene(&mut random, &mut scene, CALLS, &file);
    });
}

/// STAMP of every page of every version, where a lower walk may be lost at any place, or lead back up.
#[test]
fn stamps_of_resent_pages() {
    let first = first_seed("stamps_of_resent_pages");
    let (scenes, mut ends) = (named("PIT_SCENES", SCENES), BTreeMap::new());
    for seed in (0..scenes).map(|i| first.wrapping_add(i)) {
        let mut scene = drawn::resent_scene(&mut Random::new(seed));
        for (line, v, page) in drawn::every_page(&scene) {
            let end = stamps::stamp(&scene, line, v, page).end;
            *ends.entry(end).or_insert(0) += 1;
            let call = Call::Stamp(Line(line), Version(v), PageIndex(page));
            if let Err(complaint) = scene.make(&call) {
                panic!("{complaint}\nPIT_SEED={seed}: STAMP {line} {v} {page}");
            }
        }
    }
    println!("{ends:?}");
    for end in stamps::ENDS {
        let count = ends.get(end).copied().unwrap_or(0);
        assert!(scenes < SCENES || count >= 100, "{end}: {count} times");
    }
}
