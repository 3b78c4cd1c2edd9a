//! Whole updates in one call beside the calls that they are made of; updates that somebody has left in work; and waiting for a
//! version. `PIT_SEED` names the first seed, `PIT_SCENES` how many scenes each test has.

use crate::differential::{Pair, PAGE};
use crate::random::{scenes, Random};
use crate::support::call::{make, make_on, one_by_one, Begin, Call, Update};
use crate::support::draw::{draw, Mix, Shown, UPDATES};
use crate::updates::{limits, LIVE};
use pit_host::{Error, Limits, Line, Minute, PageIndex, Shared, Store, Ticket, Version};
use std::collections::BTreeMap;
use std::thread;
use std::time::{Duration, Instant};

const SCENES: u64 = 120;

/// How many updates are tried on a store.
const TRIES: u64 = 20;

// An update is its calls in one.

/// How often each refusal came, and 0 for none.
type Answers = BTreeMap<u64, u64>;

#[test]
fn an_update_is_its_calls_in_one() {
    let mut answers = Answers::new();
    scenes("an_update_is_its_calls_in_one", SCENES, |mut random| {
        let mut store = some_store(&mut random);
        for _ in 0..TRIES {
            let mix = mix(&mut random);
            let update = draw(&mut random, &Shown::of(&store), &mix);
            let (number, after) = compare(&update, &store);
            *answers.entry(number).or_default() += 1;
            if random.one_in(2) {
                store = after;
            }
        }
    });
    println!("{answers:?}");
    for number in [0, 4, 5, 6, 11, 20, 13, 14, 15] {
        let fewer = crate::random::named("PIT_SCENES", SCENES) < SCENES;
        assert!(fewer || answers.contains_key(&number), "{number}");
    }
}

/// Mostly a few pages, now and then up to as many as an update may have; much is wrong.
fn mix(random: &mut Random) -> Mix {
    let most = if random.one_in(10) { 64 } else { 6 };
    Mix {
        most,
        wrong: 9,
        ..UPDATES
    }
}

/// A store in work with little room, or one whose blob is nearly as large as can be.
fn some_store(random: &mut Random) -> Store {
    if random.one_in(5) {
        return large_store(random);
    }
    let most = random.pick(&[3, 40]);
    let (pages, nodes) = (most * random.pick(&[4, 20]), most * random.pick(&[9, 80]));
    let limits = Limits::new(
        PAGE as u64,
        pages + random.below(pages),
        nodes + random.below(nodes),
        8 + random.below(20),
    );
    let mut pair = Pair::new(Random::new(random.next()), limits);
    pair.most = most;
    pair.run(40);
    pair.alone
}

fn large_store(random: &mut Random) -> Store {
    let mut store = Store::format(Limits::new(PAGE as u64, 4_400, 12_000, 80)).expect("in range");
    let line = match random.below(2) {
        0 => Line(0),
        _ => store.line_from(Line(0), Version(0)),
    };
    let mut append = |n: u64| {
        let update = Update {
            line,
            at: None,
            pages: vec![vec![1; PAGE]; n as usize],
            minute: Minute(0),
        };
        one_by_one(&mut store, &update).expect("room for all");
    };
    (0..63).for_each(|_| append(64));
    append(1 + random.below(64));
    store
}

/// Makes an update in one call and in many, on copies of a store. Gives the number of the refusal, 0 for none, and the store after it.
fn compare(update: &Call, store: &Store) -> (u64, Store) {
    let (shared, mut calls) = (Shared::new(store.clone()), store.clone());
    let due = make(&mut calls, update);
    let done = make_on(&shared, update).map_err(|failure| failure.error().expect("a refusal"));
    assert_eq!(done, due, "{update:?}");
    let after = shared.to_store();
    assert!(after == calls, "{update:?}");
    let recent = shared.recent(Line(0));
    assert_eq!(recent, after.recent(Line(0)));
    (due.err().map_or(0, |refused| refused.number()), after)
}

/// A clock that gives no minute of the week: nothing is done.
#[test]
fn a_wrong_clock_is_refused_first() {
    let shared = Shared::new(Store::format(limits(8, 16, 4)).expect("in range"));
    let ticket = in_work(&shared, 1, 1);
    let before = shared.to_store();
    shared.set_clock(|| Minute(10_080));
    let page = [1; PAGE];
    assert_eq!(
        shared.append_pages(LIVE, &[&page]),
        Err(Error::NoSuchMinute)
    );
    assert_eq!(shared.finish(ticket), Err(Error::NoSuchMinute));
    assert!(shared.to_store() == before);
    shared.set_clock(|| Minute(10_079));
    assert_eq!(shared.finish(ticket), Ok(Version(1)));
}

/// Areas that are not the store's are refused before all else.
#[test]
fn areas_of_another_store_are_refused() {
    let (_, windows, areas) = Store::format(limits(8, 16, 4))
        .expect("in range")
        .into_parts();
    let state = Store::format(limits(9, 16, 4)).expect("in range").state();
    let shared = Shared::new(pit_host::Store::resume(state, windows, areas));
    let refused = Err(Error::AreaLength);
    assert_eq!(shared.append_pages(LIVE, &[]), refused);
    assert_eq!(shared.update(Line(7), PageIndex(9), &[&[1; 3]]), refused);
    assert_eq!(shared.finish(Ticket(1)), refused);
    assert_eq!(
        shared.rebuild(limits(8, 16, 4), &[]),
        Err(Error::AreaLength)
    );
    assert_eq!(shared.open_tickets(), []);
}

/// In a window an update gets its version, and a later one publishes it.
#[test]
fn a_window_holds_what_an_update_publishes() {
    let shared = Shared::new(Store::format(limits(8, 32, 8)).expect("in range"));
    shared.windows_are("600,660\n");
    let page = [1; PAGE];
    let append_at = |minute: u64| {
        shared.set_clock(move || Minute(minute));
        shared.append_pages(LIVE, &[&page])
    };
    assert_eq!(append_at(600), Ok(Version(1)));
    assert_eq!(append_at(659), Ok(Version(2)));
    assert_eq!(shared.recent(LIVE), Ok(Version(0)));
    assert_eq!(shared.open_tickets(), []); // all is woven
    assert_eq!(append_at(660), Ok(Version(3)));
    assert_eq!(shared.recent(LIVE), Ok(Version(3)));

    // and so does whoever finishes one
    assert_eq!(append_at(610), Ok(Version(4)));
    shared.set_clock(|| Minute(599));
    assert_eq!(shared.recent(LIVE), Ok(Version(3)));
    assert_eq!(shared.finish(Ticket(4)), Ok(Version(4)));
    assert_eq!(shared.recent(LIVE), Ok(Version(4)));
}

// Updates that somebody has left in work.

/// An update of so many pages, all put, with a version, and so many of its nodes woven.
fn in_work(shared: &Shared, pages: u64, woven: u64) -> Ticket {
    let ticket = shared.begin(pages).expect("room");
    for i in 0..pages {
        shared.put(ticket, i, &[7; PAGE]).expect("each page once");
    }
    shared.append(LIVE, ticket).expect("room");
    for _ in 0..woven {
        shared.weave(ticket).expect("a node is left");
    }
    ticket
}

#[test]
fn open_tickets_are_those_of_the_register() {
    scenes("open_tickets_are_those_of_the_register", SCENES, |random| {
        let limits = Limits::new(PAGE as u64, 200, 1_000, 40);
        let mut pair = Pair::new(random, limits);
        for _ in 0..6 {
            pair.run(10);
            pair.same_open_tickets();
            assert_eq!(
                pair.shared.abandoned(Duration::ZERO).len(),
                pair.shared.open_tickets().len()
            );
        }
    });
}

/// A ticket at each of its stages: no version, woven in part, woven whole, published; and no ticket.
#[test]
fn an_update_is_finished_from_any_stage() {
    let shared = Shared::new(Store::format(limits(16, 64, 8)).expect("in range"));
    shared.set_clock(|| Minute(0));
    let unassigned = shared.begin(2).expect("room");
    shared.put(unassigned, 0, &[1; PAGE]).expect("a page");
    let [in_part, whole, unwoven] = [1, 3, 0].map(|woven| in_work(&shared, 2, woven));
    let before = shared.to_store();
    for (ticket, due) in [
        (unassigned, Error::OutOfTurn),
        (Ticket(0), Error::NoSuchTicket),
        (Ticket(5), Error::NoSuchTicket),
        (Ticket(u64::MAX), Error::NoSuchTicket),
    ] {
        assert_eq!(shared.finish(ticket), Err(due));
    }
    assert!(shared.to_store() == before);

    // a later one first: it waits for the one before it
    assert_eq!(shared.finish(unwoven), Ok(Version(3)));
    assert_eq!(shared.finish(whole), Ok(Version(2)));
    assert_eq!(shared.recent(LIVE), Ok(Version(0)));
    assert_eq!(shared.finish(in_part), Ok(Version(1)));
    assert_eq!(shared.recent(LIVE), Ok(Version(3)));
    let before = shared.to_store();
    assert_eq!(shared.finish(in_part), Ok(Version(1))); // again
    assert!(shared.to_store() == before);
    let open: Vec<_> = shared.open_tickets().iter().map(|o| o.ticket).collect();
    assert_eq!(open, [unassigned]);
}

#[test]
fn a_ticket_is_abandoned_when_no_call_is_made_on_it() {
    let shared = Shared::new(Store::format(limits(16, 64, 8)).expect("in range"));
    let first_is_idle_longest = || {
        let open = shared.open_tickets();
        open[0].ticket == Ticket(1) && open[0].idle >= open[1].idle
    };
    let (pause, hour) = (Duration::from_millis(20), Duration::from_secs(3_600));
    let first = shared.begin(1).expect("room");
    thread::sleep(pause);
    shared.begin(1).expect("room");
    let abandoned = shared.abandoned(pause);
    assert_eq!(abandoned.first().map(|open| open.ticket), Some(first));
    assert_eq!(shared.abandoned(hour), []);
    assert!(first_is_idle_longest());

    // a store that is rebuilt goes on counting
    shared.rebuild(limits(20, 64, 9), &[]).expect("room");
    assert_eq!(shared.abandoned(pause)[0].ticket, first);

    // each call on it counts, and those that are refused do not
    let refused = shared.put(first, 1, &[1; PAGE]);
    assert_eq!(refused, Err(Error::NoSuchPage));
    assert!(first_is_idle_longest());
    let calls: [&dyn Fn() -> Result<(), Error>; 3] = [
        &|| shared.put(first, 0, &[1; PAGE]),
        &|| shared.append(LIVE, first).map(drop),
        &|| shared.weave(first).map(drop),
    ];
    let other = shared.begin(2).expect("room");
    for (i, call) in (0..).zip(calls) {
        assert_eq!(call(), Ok(()));
        let open = shared.open_tickets();
        if i < 2 {
            assert!(open[0].ticket == first && open[0].idle <= open[2].idle);
            shared.put(other, i, &[1; PAGE]).expect("a page");
        }
    }
    assert_eq!(shared.open_tickets().len(), 2);
}

// Waiting.

/// Longer than anybody here takes, where nothing is wrong.
const LONG: Duration = Duration::from_secs(60);
const SHORT: Duration = Duration::from_millis(15);

#[test]
fn a_version_is_waited_for() {
    let shared = &Shared::new(Store::format(limits(40, 160, 20)).expect("in range"));
    shared.set_clock(|| Minute(0));
    let page = [1; PAGE];
    assert_eq!(shared.wait_published(LIVE, Version(0)), Ok(())); // it always is
    thread::scope(|threads| {
        let waiting = [1, 1, 2, 3, 5].map(Version).map(|version| {
            threads.spawn(move || {
                assert_eq!(shared.wait_published(LIVE, version), Ok(()));
                let by_then = shared.recent(LIVE).expect("a line") >= version;
                by_then && shared.wait_published_for(LIVE, version, Duration::ZERO) == Ok(true)
            })
        });
        let until = threads.spawn(|| shared.wait_published_for(LIVE, Version(4), LONG));
        for _ in 0..5 {
            thread::yield_now();
            shared.append_pages(LIVE, &[&page]).expect("room for all");
        }
        for waiting in waiting {
            assert!(waiting.join().expect("no complaint"));
        }
        assert_eq!(until.join().expect("no complaint"), Ok(true));
    });
}

#[test]
fn waiting_ends_when_its_time_has_come() {
    let shared = Shared::new(Store::format(limits(40, 160, 20)).expect("in range"));
    shared.set_clock(|| Minute(0));
    in_work(&shared, 2, 1);
    for (line, version) in [(LIVE, 1), (LIVE, u64::MAX), (Line(1), 0), (Line(16), 0)] {
        let begun = Instant::now();
        let version = Version(version);
        let waited = shared.wait_published_for(line, version, SHORT);
        assert_eq!(waited, Ok(false));
        assert!(begun.elapsed() >= SHORT);
        let waited = shared.wait_published_for(line, version, Duration::ZERO);
        assert_eq!(waited, Ok(false));
    }
    let is_published =
        |version, most| shared.wait_published_for(LIVE, Version(version), most) == Ok(true);
    assert!(is_published(0, Duration::ZERO));
    shared.finish(Ticket(1)).expect("a version");
    assert!(is_published(1, Duration::ZERO) && is_published(1, Duration::MAX));
    assert_eq!(shared.wait_published(LIVE, Version(1)), Ok(()));
}

/// A line that begins is seen by those who wait for it.
#[test]
fn a_line_is_waited_for() {
    let shared = &Shared::new(Store::format(limits(40, 160, 20)).expect("in range"));
    thread::scope(|threads| {
        let waiting = threads.spawn(|| shared.wait_published_for(Line(1), Version(0), LONG));
        shared.line_from(LIVE, Version(0));
        assert_eq!(waiting.join().expect("no complaint"), Ok(true));
    });
}

// Room.

/// Where all updates are alike, there is room for just as many more as is told.
#[test]
fn room_is_told_in_updates_like_those_before() {
    scenes(
        "room_is_told_in_updates_like_those_before",
        SCENES,
        |mut random| {
            let n = 1 + random.below(6);
            let limits = Limits::new(
                PAGE as u64,
                n + random.below(60),
                2 * n + random.below(200),
                1 + random.below(30),
            );
            let shared = Shared::new(Store::format(limits).expect("in range"));
            let page = [1; PAGE];
            let pages = vec![&page[..]; n as usize];
            let update = || shared.update(LIVE, PageIndex(0), &pages).is_ok();
            let mut told = None;
            while update() {
                let room = shared.room();
                let state = shared.to_store().state();
                let left = (state.updates - state.tickets, state.pages - state.taken);
                assert_eq!((room.updates, room.pages), left);
                assert_eq!(room.nodes, state.nodes - state.places);
                assert_eq!(told.unwrap_or(room.at_present_mix), room.at_present_mix);
                told = room.at_present_mix.checked_sub(1);
            }
            let room = shared.room();
            assert!(room.at_present_mix == 0 || room.updates == limits.updates);
            assert_eq!(room.lines, 15);
        },
    );
}
