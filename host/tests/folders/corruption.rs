//! Damaged journals and saved stores in a folder: an error in words, or the store after some of the calls, in their order, and
//! all of those that a whole note behind the damage says were synced. `PIT_SCENES` is how many folders are drawn, each damaged
//! in many ways, `PIT_SEED` the first seed.

mod damage;

use crate::folder::Folder;
use crate::random::{named, scenes, Random};
use crate::support::call::{make_durable, words, Call};
use crate::support::entries::{entries, HEADER};
use crate::support::in_memory::Model;
use crate::support::script::{small_store, Script};
use damage::{corrupt, Files, Sources};
use pit_host::{Durable, Failure, FileError, Opened, Options, SyncAt};
use std::collections::BTreeMap;
use std::fs;
use std::time::Duration;

/// How many folders there are where nothing else is said, and how often each is damaged.
const SCENES: u64 = 60;
const DAMAGES: u64 = 50;

/// A folder with a store in work; its files as they are in the end, and as they were at some moments before.
struct Scene {
    folder: Folder,
    model: Model,
    files: Files,
    past: Vec<Files>,
}

fn files_of(folder: &Folder) -> Files {
    folder.files().into_iter().collect()
}

impl Scene {
    /// Stores have one of two limits, so that those of two scenes may be taken for each other.
    fn draw(folder: &Folder, random: &mut Random) -> Scene {
        let store = small_store(&mut Random::new(random.below(2)));
        let sync = [
            SyncAt::EachCall,
            SyncAt::EachPublish,
            SyncAt::Every(Duration::from_secs(60)),
        ];
        let options = Options::new().sync(random.pick(&sync)).checkpoint_at(0);
        let folder = Folder(folder.path(&format!("{}", random.next())));
        let durable = Durable::create(&folder.0, store.clone(), options).unwrap();
        let mut scene = Scene {
            folder,
            model: Model::keeping(store),
            files: Files::new(),
            past: Vec::new(),
        };
        scene.make_calls(&durable, random);
        if random.one_in(2) {
            drop(durable);
            scene.files = files_of(&scene.folder);
        } else {
            scene.files = files_of(&scene.folder);
            scene.shorten(random);
        }
        scene
    }

    /// Leaves little of what the last journal has written ahead, as it is where a process is killed: damage to it is no damage.
    fn shorten(&mut self, random: &mut Random) {
        let last = self.folder.generations("journal-").pop().unwrap();
        let journal = self.files.get_mut(&format!("journal-{last}")).unwrap();
        let end = entries(journal).last().map_or(HEADER, |entry| entry.end);
        journal.truncate(end + random.below(200) as usize);
    }

    fn make_calls(&mut self, durable: &Durable, random: &mut Random) {
        let mut script = Script::new(random.next());
        for _ in 0..random.below(100) {
            let call = script.next(durable);
            if random.one_in(20) {
                self.fail_a_checkpoint(durable);
            }
            let answer = words(make_durable(durable, &call)).unwrap();
            assert_eq!(answer, self.model.make(&call), "{call:?}");
            if random.one_in(20) || matches!(call, Call::Rebuild(..)) {
                self.past.push(files_of(&self.folder));
            }
        }
    }

    /// So that another journal is begun, and the store is not saved.
    fn fail_a_checkpoint(&self, durable: &Durable) {
        let last = self.folder.generations("journal-");
        let next = last.last().unwrap() + 1;
        let in_the_way = self.folder.path(&format!("store-{next}"));
        fs::create_dir(&in_the_way).unwrap();
        durable.checkpoint().unwrap_err();
        fs::remove_dir(in_the_way).unwrap();
    }

    /// Opens the folder with damaged files.
    fn open(&self, files: &Files) -> Result<(Durable, Opened), Failure> {
        let files: Vec<_> = files.clone().into_iter().collect();
        self.folder.set(&files);
        Durable::open(&self.folder.0, Options::new().checkpoint_at(0))
    }

    /// What is found in damaged files is the store after some of the calls, or an error. Where all files are those of the other
    /// folder, it is that one's store.
    fn look_at(&self, files: &Files, other: &Scene, counts: &mut BTreeMap<String, u64>) {
        let kind = match self.open(files) {
            Ok((found, opened)) => {
                let number = found.entries().0;
                let store = found.to_store();
                let is_had = [self, other].map(|scene| scene.model.had(number, &store));
                assert!(is_had.contains(&true), "no calls' store, {number} entries");
                self.assert_synced(files, &opened, number);
                format!("a store, cut: {}", opened.cut.is_some())
            }
            Err(failure) => {
                let words = failure.to_string();
                assert!(words.len() > 20, "{words}");
                assert!(files_of(&self.folder) == *files, "changed, with {words}");
                kind_of(failure)
            }
        };
        *counts.entry(kind).or_default() += 1;
    }

    /// No whole note of this folder stands behind what was cut off that says that more was synced.
    fn assert_synced(&self, files: &Files, opened: &Opened, number: u64) {
        let cut = match &opened.cut {
            None => return,
            Some(cut) => cut,
        };
        let name = format!("journal-{}", cut.generation);
        let was = self.past.iter().chain([&self.files]);
        let behind = &files[&name][cut.offset as usize..];
        for journal in was.filter_map(|files| files.get(&name)) {
            let notes = entries(journal).into_iter().filter(|e| !e.is_call());
            for note in notes.filter(|note| note.number > number) {
                let bytes = &journal[note.begin..note.end];
                let is_there = behind.windows(bytes.len()).any(|part| part == bytes);
                assert!(!is_there, "{opened}, and {} was synced", note.number);
            }
        }
    }
}

fn kind_of(failure: Failure) -> String {
    let error = match failure {
        Failure::File(error) => error,
        other => panic!("{other:?}"),
    };
    let words = |error: &FileError| {
        let words = format!("{error:?}");
        let end = words.find(|c: char| !c.is_alphanumeric());
        words[..end.unwrap_or(words.len())].to_string()
    };
    match error {
        FileError::Journal(error) => {
            let kind = format!("{:?}", error.kind);
            let end = kind.find(|c: char| !c.is_alphanumeric());
            format!("journal: {}", &kind[..end.unwrap_or(kind.len())])
        }
        FileError::Saved { error, .. } => format!("store: {}", words(&error)),
        error => words(&error),
    }
}

/// What must have come up, where there are as many scenes as usual.
const KINDS: [&str; 9] = [
    "a store, cut: false",
    "a store, cut: true",
    "journal: Damaged",
    "journal: Ended",
    "journal: Header",
    "journal: OtherStore",
    "journal: OutOfTurn",
    "store: Checksum",
    "store: Truncated",
];

#[test]
fn damaged_folders_open_to_the_store_after_some_of_the_calls_or_not_at_all() {
    let folder = Folder::in_memory("corruption");
    let mut counts = BTreeMap::new();
    scenes("damaged_folders", SCENES, |mut random| {
        let [scene, other] = [(); 2].map(|()| Scene::draw(&folder, &mut random));
        let (undamaged, _) = scene.open(&scene.files).unwrap();
        assert_eq!(undamaged.entries().0, scene.model.entries);
        drop(undamaged);
        let sources = Sources {
            past: &scene.past,
            other: &other.files,
        };
        for _ in 0..DAMAGES {
            let mut files = scene.files.clone();
            for _ in 0..=random.below(2) {
                corrupt(&mut files, &sources, &mut random);
            }
            scene.look_at(&files, &other, &mut counts);
        }
    });
    println!("{counts:#?}");
    let fewer = named("PIT_SCENES", SCENES) < SCENES;
    let all = KINDS.iter().all(|kind| counts.contains_key(*kind));
    assert!(fewer || all, "{counts:?}");
}
