//! The same states, windows and areas in a store that threads share: its calls answer as those on a store of one's own, but that no
//! page is put twice; and what a snapshot shows stays.

use crate::calls;
use crate::random::Random;
use crate::scene::Scene;
use crate::support::call::{make_on, make_one, Answer, Call};
use pit_host::{
    Areas, ByteOffset, Error, Limits, Line, Minute, PageIndex, Published, Record, Shared, Snapshot,
    Storage, Store, Version,
};
use std::path::Path;

/// A store over a scene's areas, brought to lengths that a store's areas can have: 16 bytes a page.
fn store_of(scene: &Scene) -> Store {
    let mut memory = scene.memory.clone();
    let whole = |length: usize, of: usize| (length / of).max(1) * of;
    let pages = whole(memory.pages.part().len(), 16);
    memory.pages.resize(pages, 0);
    let nodes = whole(memory.nodes.part().len(), 2);
    memory.nodes.resize(nodes, u32::MAX);
    let updates = whole(memory.register.part().len(), 1);
    memory.register.resize(updates, Record::default());
    let limits = Limits::new(16, pages as u64 / 16, nodes as u64 / 2, updates as u64);
    let mut areas = Areas::new(&limits).expect("within the limits");
    let lent = areas.parts_mut();
    lent.pages.copy_from_slice(memory.pages.part());
    lent.nodes.copy_from_slice(memory.nodes.part());
    lent.register.copy_from_slice(memory.register.part());
    Store::resume(scene.state, scene.windows, areas)
}

/// A shared store and one's own, over the same areas, and filled snapshots, each with its pages.
struct Both {
    shared: Shared,
    own: Store,
    held: Vec<(Snapshot, Vec<Vec<u8>>)>,
}

impl Both {
    fn new(scene: &Scene) -> Both {
        let own = store_of(scene);
        Both {
            shared: Shared::new(own.clone()),
            own,
            held: vec![],
        }
    }

    /// Makes a call on both. FORMAT is none that a shared store has.
    fn make(&mut self, call: &Call) {
        let call = match call {
            Call::Format(..) => return,
            Call::Read(line, v, offset, _, room) => {
                &Call::Read(*line, *v, *offset, *room as u64, *room)
            }
            call => call,
        };
        let answer = make_on(&self.shared, call);
        let answer = answer.map_err(|failure| failure.error().expect("a refusal"));
        if matches!(call, Call::Put(..)) && answer == Err(Error::Damaged) {
            // also where the page is put already, which only the shared store knows
            let alone = make_one(&mut self.own.clone(), call);
            return assert!(alone == answer || alone == Ok(Answer::Done), "{alone:?}");
        }
        assert_eq!(answer, make_one(&mut self.own, call));
        if let Call::View(line, version, _) = *call {
            self.look(line, version);
        }
    }

    /// A snapshot shows what the calls do, or refuses; filled, it is held.
    fn look(&mut self, line: Line, version: Version) {
        let snapshot = match self.shared.snapshot(line, version) {
            Ok(snapshot) => snapshot,
            Err(refused) => return assert_eq!(self.own.size(line, version), Err(refused)),
        };
        assert_eq!(Ok(snapshot.size()), self.own.size(line, version));
        for page in (0..=snapshot.pages()).map(PageIndex) {
            let (view, own) = (snapshot.view(page), self.own.view(line, version, page));
            assert!(view == own || view == Err(Error::Damaged), "{view:?}");
        }
        if let Ok(filled) = snapshot.filled() {
            let pages = pages(&filled);
            self.held.push((filled, pages));
        }
    }

    /// What is held has stayed, whatever was put.
    fn check_held(&self) {
        for (snapshot, due) in &self.held {
            assert_eq!(pages(snapshot), *due, "{snapshot:?}");
        }
    }

    /// Goes on with all that is held, and compares it with each other.
    fn go_on(&mut self) {
        let first = self.held.first().cloned();
        for (snapshot, due) in &mut self.held {
            let recent = self.shared.recent(snapshot.line());
            match snapshot.advance() {
                Ok(_) => assert_eq!(Ok(snapshot.version()), recent),
                Err(refused) => assert_eq!(refused, Error::Damaged),
            }
            *due = pages(snapshot);
            let changed = first.as_ref().map(|(first, _)| snapshot.changed(first));
            if let Some(Ok(changed)) = changed {
                assert!(changed.iter().all(|page| page.0 < snapshot.pages()));
            }
        }
    }
}

/// All pages of a filled snapshot, which READ gives too.
fn pages(snapshot: &Snapshot) -> Vec<Vec<u8>> {
    let views = (0..snapshot.pages()).map(|page| snapshot.view(PageIndex(page)));
    let pages: Result<Vec<_>, Error> = views.map(|view| view.map(<[u8]>::to_vec)).collect();
    let pages = pages.expect("a filled snapshot");
    let mut bytes = vec![0; snapshot.size() as usize];
    let read = snapshot.read(ByteOffset(0), &mut bytes);
    assert_eq!((read, bytes), (Ok(()), pages.concat()));
    pages
}

/// Random calls on both stores of a scene; then those that only a shared one has.
pub fn try_scene(random: &mut Random, scene: &mut Scene, calls: u64, file: &Path) {
    let mut both = Both::new(scene);
    for _ in 0..calls {
        let call = calls::draw(random, scene);
        both.make(&call);
        both.check_held();
        (scene.state, scene.windows) = (both.own.state(), both.own.windows());
    }
    let file = random.one_in(4).then_some(file); // a save waits for the disk
    keep(&both.shared, file);
    for _ in 0..3 {
        whole_updates(random, &both.shared, scene);
        both.check_held();
        both.go_on();
    }
    rebuild(random, &both.shared, scene);
    both.check_held();
    both.go_on();
    keep(&both.shared, file);
}

/// What is saved is what is loaded again.
fn keep(shared: &Shared, file: Option<&Path>) {
    let (copied, _) = (shared.to_store(), format!("{shared:?}"));
    if let Some(file) = file.filter(|file| shared.save(file).is_ok()) {
        let loaded = Shared::load(file).expect("as saved");
        assert!(loaded.to_store() == copied);
        let other = Shared::new(copied.clone());
        other.reload(file).expect("as saved");
        assert!(other.to_store() == copied);
    }
}

fn whole_updates(random: &mut Random, shared: &Shared, scene: &Scene) {
    let length = scene.state.size.min(100) as usize;
    let page = random.bytes(length);
    let pages = vec![&page[..]; 1 + random.below(3) as usize];
    let line = Line(random.below(scene.state.begun.clamp(1, 20)));
    let _ = shared.append_pages(line, &pages);
    let _ = shared.update(line, PageIndex(random.below(6)), &pages);
    let _ = shared.update(line, PageIndex(u64::MAX), &pages);
    for open in shared.open_tickets() {
        let _ = shared.finish(open.ticket);
    }
    let _ = (shared.room(), shared.abandoned(Default::default()));
}

/// A damaged store is refused; or it is rebuilt, where nothing is found.
fn rebuild(random: &mut Random, shared: &Shared, scene: &Scene) {
    let line = Line(random.below(scene.state.begun.clamp(1, 17)));
    let version = Version(random.below(scene.state.line(line).published + 2));
    let limits = Limits::new(scene.state.size, 400, 4_000, 200);
    match shared.rebuild(limits, &[(line, version)]) {
        Ok(_) => assert!(shared.size(line, version).is_ok()),
        Err(refused) => assert!(
            [1, 3, 16, 19, 20].contains(&refused.number()),
            "{refused:?}"
        ),
    }
}

/// Some tickets get page numbers that others have, and may be put anew.
pub fn overlap(random: &mut Random, scene: &mut Scene) {
    let pages = scene.state.pages.clamp(1, 64);
    for record in scene.memory.register.parts_mut() {
        if random.one_in(2) {
            (record.number, record.put, record.update) = (random.below(pages), 0, 0);
        }
    }
}

/// A register that lets a ticket write another one's page: it is refused, and those who look at the page see nothing of it.
#[test]
fn a_page_that_is_put_is_not_written_again() {
    let mut store = Store::format(Limits::new(16, 8, 16, 4)).expect("in range");
    let ticket = store.begin(1).expect("room");
    store.put(ticket, 0, &[1; 16]).expect("a page");
    store.append(Line(0), ticket).expect("room");
    store.weave(ticket).expect("a node");
    let published = store.publish(Line(0), Minute(0));
    assert_eq!(published, Ok(Published::Now(Version(1))));
    let other = store.begin(2).expect("room");
    let (state, windows, mut areas) = store.into_parts();
    areas.parts_mut().register[1].number = 0;
    let mut store = Store::resume(state, windows, areas);
    let shared = Shared::new(store.clone());

    let snapshot = shared.snapshot(Line(0), Version(1)).expect("published");
    let filled = snapshot.clone().filled().expect("published");
    let (view, of_filled) = (snapshot.view(PageIndex(0)), filled.view(PageIndex(0)));
    let before = shared.to_store();
    assert_eq!(shared.put(other, 0, &[2; 16]), Err(Error::Damaged));
    assert_eq!(shared.put(other, 0, &[2; 15]), Err(Error::PageLength));
    assert_eq!(shared.put(other, 2, &[2; 16]), Err(Error::NoSuchPage));
    assert!(shared.to_store() == before);
    assert_eq!((view, of_filled), (Ok(&[1; 16][..]), Ok(&[1; 16][..])));
    assert_eq!(shared.put(other, 1, &[2; 16]), Ok(())); // nobody has that one
    assert_eq!(shared.put(other, 1, &[3; 16]), Err(Error::AlreadyPut));

    assert_eq!(store.put(other, 0, &[2; 16]), Ok(())); // one's own store has no readers
}
