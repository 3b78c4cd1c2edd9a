//! Random scenes, from wholly random ones to a valid store with one number changed, and what the calls on them are given.

use crate::memory::{Memory, Numbers};
use crate::random::Random;
use crate::scene::Scene;
use crate::stamps;
use crate::support::call::{Begin, Call};
use crate::windows::WEEK;
use pit_host::{
    ByteOffset, Error, Limits, Line, Minute, PageIndex, PartsMut, Record, State, Store, Version,
    Windows,
};

/// Numbers at which a limit, a width or a sum can go wrong.
const EDGES: [u64; 22] = [
    15,
    16,
    63,
    64,
    65,
    4_095,
    4_096,
    4_097,
    65_535,
    65_536,
    65_537,
    131_072,
    (1 << 32) - 1,
    1 << 32,
    (1 << 32) + 1,
    1 << 60,
    (1 << 63) - 1,
    1 << 63,
    u64::MAX - 64,
    u64::MAX - 15,
    u64::MAX - 1,
    u64::MAX,
];

/// A number that has nothing to do with any store: small, at an edge, or of any length in bits.
fn any_number(random: &mut Random) -> u64 {
    match random.below(8) {
        0 => random.pick(&EDGES),
        1 => random.next() >> random.below(64),
        _ => random.below(9),
    }
}

/// A number near another.
fn near(random: &mut Random, number: u64) -> u64 {
    match random.below(4) {
        0 => number.wrapping_add(1),
        1 => number.wrapping_sub(1),
        2 => number.wrapping_add(1 << random.below(64)),
        _ => number / 2,
    }
}

// Scenes that are wholly random.

fn any_numbers<T: Numbers>(random: &mut Random) -> T {
    let mut of = T::default();
    for number in of.each() {
        *number = any_number(random);
    }
    of
}

/// A state of random numbers. So many lines have begun as there are, or fewer, or more; the first one's versions are mostly
/// its own.
fn any_state(random: &mut Random) -> State {
    let mut s: State = any_numbers(random);
    if random.one_in(4) {
        return s;
    }
    for line in (0..16).map(Line) {
        s.set_line(line, any_numbers(random));
    }
    s.begun = random.below(18);
    let mut first = s.line(Line(0));
    (first.start, first.published) = (0, random.below(9));
    s.set_line(Line(0), first);
    s
}

/// The number of a version on one of the first lines, or on one that no store has.
fn any_name(random: &mut Random) -> u64 {
    let line = match random.below(8) {
        0 => random.below(20),
        1 => random.below(65_536),
        2 | 3 => random.below(3),
        _ => 0,
    };
    65_536 * line + random.below(8)
}

/// Random bytes as node numbers: mostly low ones, as versions are, or not stored.
fn any_node(random: &mut Random) -> u32 {
    match random.below(8) {
        0 => u32::MAX,
        1 => random.next() as u32,
        2 => any_name(random) as u32,
        _ => random.below(8) as u32,
    }
}

/// Four low numbers of 16 bits.
fn any_entries(random: &mut Random) -> u64 {
    (0..4).fold(0, |word, _| 65_536 * word + random.below(9))
}

/// A root's span, mostly a small one; or a number beside one, none, or any power of two.
fn any_span(random: &mut Random) -> u64 {
    let span = 1 << random.below(4);
    match random.below(12) {
        0 => 0,
        1 => 1 << random.below(64),
        2 => (1 << random.below(14)) + random.below(3) - 1,
        3 => near(random, span),
        _ => span,
    }
}

/// Random numbers, or such as an update might have; of the k-th record mostly such as line 0's version k has.
fn any_record(random: &mut Random, k: u64) -> Record {
    if random.one_in(6) {
        return any_numbers(random);
    }
    let (n, f) = (1 + random.below(4), random.below(3));
    let last = f + random.below(2);
    let mut record = Record::default();
    (record.n, record.number, record.put) = (n, random.below(6), (1 << n) - 1);
    (record.update, record.ticket) = (random.below(5), random.below(5));
    record.name = any_name(random);
    (record.f, record.last, record.size) = (f, last, last + 1 + random.below(2));
    record.past = 2 * f - u64::from(f.count_ones());
    (record.span, record.count) = (any_span(random), 1 + random.below(9));
    record.top = stamps::root_height(record.span) + random.below(12);
    record.woven = random.below(10);
    if random.one_in(6) {
        (record.top, record.past) = (random.below(5), random.below(9));
    }
    record.entries.from0 = any_entries(random);
    record.entries.from12 = any_entries(random);
    if !random.one_in(6) {
        record.name = k;
    }
    record
}

fn any_memory(random: &mut Random, lengths: [u64; 3]) -> Memory {
    let [pages, nodes, records] = lengths;
    let nodes: Vec<u32> = (0..nodes).map(|_| any_node(random)).collect();
    let records: Vec<Record> = (1..=records).map(|k| any_record(random, k)).collect();
    Memory::new(&any_bytes(random, pages as usize), &nodes, &records)
}

/// Random bytes; half of the time mostly zeros, so that pages are often the same.
fn any_bytes(random: &mut Random, length: usize) -> Vec<u8> {
    let mut bytes = random.bytes(length);
    if random.one_in(2) {
        for byte in &mut bytes {
            *byte *= u8::from(random.one_in(64));
        }
    }
    bytes
}

/// A page to put: one byte all over, one of two, so that pages are often resent; or random bytes.
fn any_page(random: &mut Random, size: usize) -> Vec<u8> {
    match random.below(4) {
        0 => random.bytes(size),
        fill => vec![fill.min(2) as u8; size],
    }
}

/// An end of a window: a minute of the week, mostly a low one; or no minute.
fn any_end(random: &mut Random) -> u16 {
    let end = match random.below(8) {
        0 => random.below(65_536),
        1 => random.pick(&[WEEK - 1, WEEK, WEEK + 1, 65_535]),
        2 | 3 => random.below(WEEK),
        _ => random.below(40),
    };
    end as u16
}

/// Any numbers in any of the places: none, a few, or all.
fn any_windows(random: &mut Random) -> Windows {
    let mut windows = Windows::default();
    let rare = random.pick(&[1, 8, 32, 1_000]);
    for place in &mut windows.places {
        if random.one_in(rare) {
            (place.from, place.to) = (any_end(random), any_end(random));
        }
    }
    windows
}

/// Random bytes of any length, and a state of random numbers.
pub fn random_scene(random: &mut Random) -> Scene {
    let lengths = [200, 50, 12].map(|most| random.below(most));
    Scene {
        state: any_state(random),
        windows: any_windows(random),
        memory: any_memory(random, lengths),
    }
}

/// Random bytes of the lengths that the state says; its counters are random.
pub fn fitting_scene(random: &mut Random) -> Scene {
    let size = random.pick(&[0, 1, 2, 3, 7, 16, 16, 16, 24, 64]);
    let half = random.below(2); // of the scenes have more than half of what may be
    let capacities = [9, 40, 9].map(|above| {
        let least = half * above / 2;
        random.between(least, above - 1)
    });
    let mut s = any_state(random);
    s.size = size;
    [s.pages, s.nodes, s.updates] = capacities;
    Scene {
        state: s,
        windows: any_windows(random),
        memory: any_memory(random, [s.size * s.pages, 2 * s.nodes, s.updates]),
    }
}

// Scenes from valid stores.

fn some_limits(random: &mut Random) -> Limits {
    let page_size = random.pick(&[16, 16, 16, 32, 64]);
    let (pages, nodes) = (4 + random.below(24), 16 + random.below(80));
    Limits::new(page_size, pages, nodes, 2 + random.below(9))
}

/// A store as calls leave it, with updates at every stage; and any windows.
pub fn valid_scene(random: &mut Random, limits: Limits) -> Scene {
    let lengths = [
        limits.page_size * limits.pages,
        2 * limits.nodes,
        limits.updates,
    ];
    let mut memory = any_memory(random, lengths);
    let mut store = Store::format_in(limits, memory.parts_mut()).expect("limits in range");
    while update(random, &mut store).is_ok() && !random.one_in(8) {}
    Scene {
        state: store.state(),
        windows: any_windows(random),
        memory,
    }
}

/// An update on one of the lines, which may stop at any stage; now and then a new line before. An error where the store is
/// full.
fn update(random: &mut Random, store: &mut Store<PartsMut<'_>>) -> Result<(), Error> {
    let line = random.below(2) * random.below(store.state().begun);
    let mut line = Line(line);
    if random.one_in(3) && store.state().begun < 16 {
        let recent = store.recent(line)?;
        line = store.line_from(line, Version(random.below(recent.0 + 1)));
    }
    let (n, size) = (1 + random.below(4), store.state().size as usize);
    let ticket = store.begin(n)?;
    let puts = if random.one_in(6) { n - 1 } else { n };
    for i in 0..puts {
        store.put(ticket, i, &any_page(random, size))?;
    }
    if puts < n || random.one_in(4) {
        return Ok(());
    }
    let f = random.below(store.state().line(line).blob + 1);
    let nodes = store.write(line, ticket, PageIndex(f))?.nodes;
    let woven = if random.one_in(8) {
        random.below(nodes)
    } else {
        nodes
    };
    for _ in 0..woven {
        store.weave(ticket)?;
    }
    let mut published = true;
    while published && !random.one_in(8) {
        let done = store.publish(line, Minute(0))?;
        published = done.version().is_some();
    }
    Ok(())
}

/// A store of four pages that are resent over and over, on a few lines, with numbers changed: of its nodes, its records and its
/// lines.
pub fn resent_scene(random: &mut Random) -> Scene {
    let limits = Limits::new(16, 40, 160, 12);
    let mut memory = any_memory(random, [16 * 40, 2 * 160, 12]);
    let mut store = Store::format_in(limits, memory.parts_mut()).expect("limits in range");
    let fill = 1 + random.below(2) as u8;
    whole_update(&mut store, Line(0), 0, &[fill; 4]);
    for _ in 0..8 {
        if random.one_in(4) {
            let source = Line(random.below(store.state().begun));
            let recent = store.recent(source).expect("a line that has begun");
            let version = Version(random.below(recent.0 + 1).max(1));
            store.line_from(source, version);
        }
        let line = Line(random.below(store.state().begun));
        let (first, n) = (random.below(4), 1 + random.below(2));
        let other = [fill, fill + u8::from(random.one_in(4))];
        whole_update(&mut store, line, first, &other[..n as usize]);
    }
    let mut scene = Scene {
        state: store.state(),
        windows: Windows::default(),
        memory,
    };
    for _ in 0..1 + random.below(3) {
        change_a_walk(random, &mut scene);
    }
    scene
}

/// Line, version and page of all that such a store shows.
pub fn every_page(scene: &Scene) -> Vec<(u64, u64, u64)> {
    let mut every = vec![];
    for line in 0..scene.state.begun {
        for v in 1..=scene.state.line(Line(line)).published {
            every.extend((0..5).map(|page| (line, v, page)));
        }
    }
    every
}

/// An update from BEGIN to PUBLISH, each page filled with its byte.
fn whole_update(store: &mut Store<PartsMut<'_>>, line: Line, first: u64, fills: &[u8]) {
    let ticket = store.begin(fills.len() as u64).expect("room for all");
    for (i, fill) in (0..).zip(fills) {
        let done = store.put(ticket, i, &[*fill; 16]);
        done.expect("each page once");
    }
    let assigned = store.write(line, ticket, PageIndex(first));
    for _ in 0..assigned.expect("room for all").nodes {
        store.weave(ticket).expect("a node is left");
    }
    let published = store.publish(line, Minute(0));
    assert!(published.expect("a line").version().is_some());
}

/// Changes a number that a walk reads: of a node, a record or a line.
fn change_a_walk(random: &mut Random, scene: &mut Scene) {
    let s = &mut scene.state;
    match random.below(8) {
        0 => {
            let line = Line(random.below(s.begun));
            let mut of = s.line(line);
            match random.below(2) {
                0 => of.source = random.below(16),
                _ => of.start = random.below(9),
            }
            s.set_line(line, of);
        }
        1..=3 => {
            let record = pick_mut(random, &mut scene.memory.register.parts_mut()[..9]);
            change_one(random, &mut record.each()[5..]); // what is before has no part in a walk
        }
        _ => {
            let used = 2 * s.places as usize;
            let number = pick_mut(random, &mut scene.memory.nodes.parts_mut()[..used]);
            *number = match random.below(4) {
                0 => any_node(random),
                1 => any_name(random) as u32,
                2 => 40 + random.below(2) as u32,
                _ => 1 + random.below(9) as u32,
            };
        }
    }
}

fn some_store(random: &mut Random) -> Scene {
    let limits = some_limits(random);
    valid_scene(random, limits)
}

/// A valid store with one number changed, in the state, a record or a node; now and then with several.
pub fn changed_scene(random: &mut Random) -> Scene {
    let mut scene = some_store(random);
    change(random, &mut scene);
    while random.one_in(4) {
        change(random, &mut scene);
    }
    scene
}

fn change(random: &mut Random, scene: &mut Scene) {
    let s = &mut scene.state;
    match random.below(16) {
        // products with these wrap to what they were
        0 => s.size = s.size.wrapping_add(1 << 62),
        1 => s.nodes = s.nodes.wrapping_add(1 << 63),
        2 | 3 => change_one(random, &mut s.each()[..COUNTERS]),
        4 | 5 => {
            let line = Line(random.below(s.begun.clamp(1, 16)));
            let mut of = s.line(line);
            change_one(random, &mut of.each());
            s.set_line(line, of);
        }
        6..=12 => {
            let record = pick_mut(random, scene.memory.register.parts_mut());
            change_one(random, &mut record.each());
        }
        _ => *pick_mut(random, scene.memory.nodes.parts_mut()) = any_node(random),
    }
}

/// How many numbers a state has before its lines: the limits, the counters and the lines' sources.
const COUNTERS: usize = 10;

/// The numbers of a state, the last line that has begun last.
fn numbers_of(s: &State) -> Vec<u64> {
    let mut numbers = s.numbers();
    numbers.truncate(COUNTERS);
    let lines = (0..s.begun.clamp(1, 16)).map(Line);
    numbers.extend(lines.flat_map(|line| s.line(line).numbers()));
    numbers
}

fn change_one(random: &mut Random, numbers: &mut [&mut u64]) {
    let number = pick_mut(random, numbers);
    **number = match random.below(4) {
        0 => any_number(random),
        1 => any_name(random),
        _ => near(random, **number),
    };
}

fn pick_mut<'a, T>(random: &mut Random, from: &'a mut [T]) -> &'a mut T {
    let at = random.below(from.len() as u64);
    &mut from[at as usize]
}

/// A valid store with an area cut off, or longer than before. The state says so, or not.
pub fn cut_scene(random: &mut Random) -> Scene {
    let mut scene = some_store(random);
    let (told, area) = (random.one_in(2), random.below(3));
    let mut length_for = |old: u64| match random.below(4) {
        0 => old - 1,
        1 => old + 1,
        2 => old / 2,
        _ => random.below(old + 4),
    };
    let Scene {
        state: s, memory, ..
    } = &mut scene;
    match area {
        0 => {
            let pages = length_for(s.pages);
            memory.pages.resize((s.size * pages) as usize, 0);
            s.pages = if told { pages } else { s.pages };
        }
        1 => {
            let nodes = length_for(s.nodes);
            memory.nodes.resize(2 * nodes as usize, 1);
            s.nodes = if told { nodes } else { s.nodes };
        }
        _ => {
            let updates = length_for(s.updates);
            let filling = Record::default();
            memory.register.resize(updates as usize, filling);
            s.updates = if told { updates } else { s.updates };
        }
    }
    scene
}

/// The state, the windows and the areas of three valid stores with the same limits, mixed.
pub fn mixed_scene(random: &mut Random) -> Scene {
    let limits = some_limits(random);
    let stores = [(); 3].map(|()| valid_scene(random, limits));
    let mut some = || &stores[random.below(3) as usize];
    Scene {
        state: some().state,
        windows: some().windows,
        memory: Memory {
            pages: some().memory.pages.clone(),
            nodes: some().memory.nodes.clone(),
            register: some().memory.register.clone(),
        },
    }
}

// What calls are given.

/// An argument: small, or a number of the state or of a record or near it, or any other.
pub fn argument(random: &mut Random, scene: &Scene) -> u64 {
    let register = scene.memory.register.part();
    let known = match random.below(8) {
        0..=2 => return random.below(7),
        3 => return any_number(random),
        4 if !register.is_empty() => random.pick(register).numbers(),
        _ => numbers_of(&scene.state),
    };
    let known = random.pick(&known);
    if random.one_in(2) {
        known
    } else {
        near(random, known)
    }
}

/// A version, ticket or count: mostly one that is there.
pub fn up_to(random: &mut Random, scene: &Scene, last: u64) -> u64 {
    if random.one_in(3) {
        argument(random, scene)
    } else {
        1 + random.below(last.clamp(1, 64))
    }
}

/// A line: mostly one that has begun, the first one most.
pub fn some_line(random: &mut Random, scene: &Scene) -> u64 {
    match random.below(8) {
        0 => argument(random, scene),
        1 => random.below(17),
        2..=4 => 0,
        _ => random.below(scene.state.begun.clamp(1, 16)),
    }
}

/// A page, half of the time one that the version's update has put, by the record of its number, or beside it.
pub fn some_page(random: &mut Random, scene: &Scene, version: u64) -> u64 {
    let at = (version as usize).wrapping_sub(1);
    match scene.memory.register.part().get(at) {
        Some(record) if random.one_in(2) => record.f.saturating_add(random.below(2)),
        _ => argument(random, scene),
    }
}

/// A minute of the week, mostly a low one or an end of a window; or no minute.
pub fn some_minute(random: &mut Random, scene: &Scene) -> u64 {
    let places = scene.windows.places.iter();
    let ends = places.flat_map(|w| [w.from, w.to]).map(u64::from);
    let ends: Vec<u64> = ends.filter(|end| *end != 0).collect();
    match random.below(8) {
        0 => argument(random, scene),
        1 => random.pick(&[WEEK - 1, WEEK, WEEK + 1]),
        2 => random.below(WEEK),
        3 | 4 if !ends.is_empty() => random.pick(&ends),
        5 if !ends.is_empty() => random.pick(&ends) - 1,
        _ => random.below(40),
    }
}

/// The text of a list; mostly a good one, else with a line of any ends, a byte changed, or any bytes.
pub fn some_text(random: &mut Random) -> Vec<u8> {
    let count = random.pick(&[0, 1, 2, 3, 31, 32, 33, 40]);
    let mut text = vec![];
    for _ in 0..count {
        let from = random.below(WEEK);
        let to = (from + 1 + random.below(WEEK - 1)) % WEEK;
        text.extend(format!("{from},{to}\n").into_bytes());
    }
    match random.below(8) {
        0 => text.extend(format!("{},{}\n", any_end(random), any_end(random)).into_bytes()),
        1 if count > 0 => *pick_mut(random, &mut text) = random.pick(b"0123456789,\n -\r\0\xff"),
        2 => text.truncate(random.below(text.len() as u64 + 1) as usize),
        3 => {
            let length = random.below(60) as usize;
            text = random.bytes(length);
        }
        _ => (),
    }
    text
}

/// Mostly the limits that the areas have, which FORMAT accepts if it accepts any.
pub fn limits_of(random: &mut Random, scene: &Scene) -> Limits {
    let mut numbers = scene.state.numbers();
    if random.one_in(2) {
        numbers[random.below(4) as usize] = argument(random, scene);
    }
    Limits::new(numbers[0], numbers[1], numbers[2], numbers[3])
}

pub fn bytes_length(random: &mut Random, s: &State) -> usize {
    let page = s.size.min(100);
    let length = match random.below(8) {
        0 => page + 1,
        1 => random.below(page + 1),
        _ => page,
    };
    length as usize
}

/// A range within a page or over some, or any; a buffer that has room for it, or not.
pub fn read_of(random: &mut Random, scene: &Scene, line: Line, version: Version) -> Call {
    let size = scene.state.size.clamp(1, 4_096);
    let (offset, len) = match random.below(4) {
        0 => (argument(random, scene), argument(random, scene)),
        1 => (
            argument(random, scene).wrapping_mul(size),
            random.below(size + 2),
        ),
        _ => (random.below(4 * size), random.below(3 * size)),
    };
    let room = if random.one_in(6) {
        random.below(len.clamp(1, 300))
    } else {
        len
    };
    let offset = ByteOffset(offset);
    Call::Read(line, version, offset, len, room.min(300) as usize)
}
