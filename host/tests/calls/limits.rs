//! Limits by the updates that are planned, and why limits are not allowed: the words and numbers against plain rules.
//! `PIT_SEED` names the seed.

use crate::random::{first_seed, Random};
use crate::updates::{assign, limits, update, LIVE};
use crate::worst::asked;
use pit_host::{
    node_count, root_span, worst_node_count, Capacity, Error, Limits, LimitsError, Line, PageIndex,
    Planned, Store, WrongUpdate,
};

/// The most of each capacity, as the paper has it.
const MOST: [(Capacity, u64); 3] = [
    (Capacity::Updates, 4_096),
    (Capacity::Pages, 65_535),
    (Capacity::Nodes, 131_072),
];

fn planned(f: u64, n: u64, size: u64) -> Planned {
    Planned::new(PageIndex(f), n, size)
}

/// The refusal of a planned update.
fn wrong_update(number: Option<u64>, planned: Planned, wrong: WrongUpdate) -> LimitsError {
    LimitsError::Update {
        number,
        planned,
        wrong,
    }
}

/// The refusal of a capacity.
fn wrong_capacity(of: Capacity, asked: u64) -> LimitsError {
    let most = of.most();
    LimitsError::Capacity { of, asked, most }
}

#[test]
fn limits_for_planned_updates_are_just_enough() {
    let plan = [planned(0, 4, 4), planned(1, 2, 4), planned(4, 1, 5)];
    let exact = Limits::for_updates(16, &plan).unwrap();
    assert_eq!(exact, limits(7, 16, 3));
    let run = |limits| {
        let mut store = Store::format(limits)?;
        for update_of in plan {
            let fills = vec![1; update_of.pages as usize];
            update(&mut store, LIVE, Some(update_of.first.0), &fills)?;
        }
        Ok(())
    };
    assert_eq!(run(exact), Ok(()));
    assert_eq!(run(limits(6, 16, 3)), Err(Error::PagesFull));
    assert_eq!(run(limits(7, 15, 3)), Err(Error::NodesFull));
    assert_eq!(run(limits(7, 16, 2)), Err(Error::RegisterFull));
}

#[test]
fn a_planned_update_that_no_store_takes_is_named() {
    let (one, most) = (planned(0, 1, 1), u64::MAX);
    for (update, wrong) in [
        (planned(0, 0, 1), WrongUpdate::NoPages),
        (planned(most, 0, most), WrongUpdate::NoPages),
        (planned(0, 65, 65), WrongUpdate::TooManyPages),
        (planned(most, most, most), WrongUpdate::TooManyPages),
        (planned(0, 1, 4_097), WrongUpdate::BlobTooLarge),
        (planned(most, 64, most), WrongUpdate::BlobTooLarge),
        (planned(1, 1, 1), WrongUpdate::PastEnd),
        (planned(0, 1, 0), WrongUpdate::PastEnd),
        (planned(4_033, 64, 4_096), WrongUpdate::PastEnd),
        (planned(most, 64, 4_096), WrongUpdate::PastEnd),
    ] {
        let refused = Limits::for_updates(16, &[one, update, one]);
        assert_eq!(refused, Err(wrong_update(Some(2), update, wrong)));
    }
    for (blob, pages, wrong) in [
        (8, 0, WrongUpdate::NoPages),
        (most, most, WrongUpdate::TooManyPages),
        (4_097, 1, WrongUpdate::BlobTooLarge),
        (0, 1, WrongUpdate::PastEnd),
        (8, 9, WrongUpdate::PastEnd),
    ] {
        let refused = Limits::worst(16, blob, most, pages);
        let update = planned(0, pages, blob);
        assert_eq!(refused, Err(wrong_update(None, update, wrong)));
    }
}

#[test]
fn a_page_size_or_capacity_that_is_not_allowed_is_named() {
    let one = planned(0, 1, 1);
    let page_size = Err(LimitsError::PageSize { asked: 24 });
    assert_eq!(Limits::for_updates(24, &[one]), page_size);
    assert_eq!(Limits::worst(24, 8, 1, 1), page_size);

    let updates = |asked| Err(wrong_capacity(Capacity::Updates, asked));
    assert_eq!(Limits::for_updates(16, &[]), updates(0));
    assert_eq!(
        Limits::for_updates(16, &[one; 4_096]),
        Ok(limits(4_096, 4_096, 4_096))
    );
    assert_eq!(Limits::for_updates(16, &[one; 4_097]), updates(4_097));
    assert_eq!(Limits::worst(16, 8, 0, 1), updates(0));
    assert_eq!(Limits::worst(16, 8, u64::MAX, 2), updates(u64::MAX));

    let pages = Err(wrong_capacity(Capacity::Pages, 65_536));
    assert_eq!(Limits::worst(16, 64, 1_024, 64), pages);
    let nodes = Err(wrong_capacity(Capacity::Nodes, 4_096 * 35));
    assert_eq!(Limits::worst(16, 4_096, 4_096, 8), nodes);
}

#[test]
fn why_in_words() {
    let words = |refused: Result<Limits, LimitsError>| refused.unwrap_err().to_string();
    for (update, said) in [
        (planned(0, 0, 1), "has no pages, and an update has 1 to 64"),
        (
            planned(0, 65, 65),
            "has 65 pages, and an update has 1 to 64",
        ),
        (
            planned(0, 1, 1_000_000),
            "leaves a blob of 1,000,000 pages, and one has at most 4,096",
        ),
        (
            planned(7, 2, 8),
            "ends with page 8, counted from 0, and the blob's size after it is 8",
        ),
    ] {
        let refused = words(Limits::for_updates(16, &[update]));
        assert_eq!(
            refused,
            format!("limits not allowed: planned update 1 {said}")
        );
    }
    let refused = words(Limits::worst(16, 4_097, 1, 1));
    let said = "each update leaves a blob of 4,097 pages, and one has at most 4,096";
    assert_eq!(refused, format!("limits not allowed: {said}"));
    let refused = words(Limits::worst(16, 8, u64::MAX, 1));
    let said = "asked for 18,446,744,073,709,551,615 updates, and a store has 1 to 4,096";
    assert_eq!(refused, format!("limits not allowed: {said}"));
    let refused = limits(1, 131_073, 1).explain().unwrap_err().to_string();
    let said = "asked for 131,073 nodes, and a store has 1 to 131,072";
    assert_eq!(refused, format!("limits not allowed: {said}"));
    let refused = Limits::new(5_000, 0, 0, 0).explain().unwrap_err();
    let said = "the page size is 5,000 bytes, and must be a power of two from 16 to 4,096";
    assert_eq!(refused.to_string(), format!("limits not allowed: {said}"));
}

/// What is wrong with limits, by plain rules.
fn plainly(limits: Limits) -> Result<(), LimitsError> {
    let asked = limits.page_size;
    if ![16, 32, 64, 128, 256, 512, 1_024, 2_048, 4_096].contains(&asked) {
        return Err(LimitsError::PageSize { asked });
    }
    let asked = [limits.updates, limits.pages, limits.nodes];
    let wrong = MOST.into_iter().zip(asked);
    let mut wrong = wrong.filter(|((_, most), asked)| *asked == 0 || asked > most);
    match wrong.next() {
        Some(((of, most), asked)) => Err(LimitsError::Capacity { of, asked, most }),
        None => Ok(()),
    }
}

/// A number inside the limit, at its ends, or any number of any length in bits.
fn drawn(random: &mut Random, most: u64) -> u64 {
    match random.below(16) {
        0 => random.pick(&[0, u64::MAX, 1 << 32, (1 << 32) + 1, 1 << 63]),
        1 => random.pick(&[1, 2, most - 1, most, most + 1, most + 2]),
        2 => random.next() >> random.below(64),
        3 => random.below(most) + (1 << (17 + random.below(47))),
        _ => 1 + random.below(most),
    }
}

fn drawn_page_size(random: &mut Random) -> u64 {
    match random.below(8) {
        0 => drawn(random, 4_096),
        1 => 1 << random.below(64),
        _ => 16 << random.below(9),
    }
}

/// FORMAT, `check` and `explain` agree on all limits, and what `explain` says is what plain rules say.
#[test]
fn explained_just_where_format_refuses() {
    let seed = first_seed("explained_just_where_format_refuses");
    let (mut random, mut met) = (Random::new(seed), [0; 5]);
    for _ in 0..100_000 {
        let mut limits = Limits::new(drawn_page_size(&mut random), 0, 0, 0);
        limits.updates = drawn(&mut random, 4_096);
        limits.pages = drawn(&mut random, 65_535);
        limits.nodes = drawn(&mut random, 131_072);
        let explained = limits.explain();
        assert_eq!(explained, plainly(limits), "{limits:?}");
        let refusal = explained.err().and_then(|refused| refused.error());
        assert_eq!(limits.check().err(), refusal, "{limits:?}");
        met[match explained {
            Ok(()) => 0,
            Err(LimitsError::PageSize { .. }) => 1,
            Err(LimitsError::Capacity { of, .. }) => {
                2 + MOST.iter().position(|(other, _)| *other == of).unwrap()
            }
            Err(other) => panic!("{other}"),
        }] += 1;
    }
    assert!(met.iter().all(|count| *count > 0), "{met:?}");
}

/// The updates of a random plan, each inside the limits or a little outside: `for_updates` refuses the first one that makes no
/// nodes, by its number, and else has room for just what they need.
#[test]
fn plans_are_refused_by_their_first_wrong_update() {
    let seed = first_seed("plans_are_refused_by_their_first_wrong_update");
    let (mut random, mut met) = (Random::new(seed), [0; 2]);
    for _ in 0..3_000 {
        let plan: Vec<Planned> = (0..1 + random.below(12))
            .map(|_| {
                let size = random.below(4_100);
                let first = random.below(size + 1 - size / 64);
                planned(first, random.below(68), size)
            })
            .collect();
        let counts = plan
            .iter()
            .map(|u| node_count(u.first.0, u.pages, u.size_after));
        let counts: Vec<u64> = counts.collect();
        let wrong = counts.iter().position(|count| *count == 0);
        met[usize::from(wrong.is_some())] += 1;
        match (Limits::for_updates(256, &plan), wrong) {
            (Ok(limits), None) => {
                let (pages, nodes) = (plan.iter().map(|u| u.pages).sum(), counts.iter().sum());
                assert_eq!(limits, Limits::new(256, pages, nodes, plan.len() as u64));
            }
            (
                Err(LimitsError::Update {
                    number, planned, ..
                }),
                Some(at),
            ) => {
                assert_eq!((number, planned), (Some(at as u64 + 1), plan[at]));
            }
            (answer, _) => panic!("{answer:?} of {plan:?}"),
        }
    }
    assert!(met.iter().all(|count| *count > 0), "{met:?}");
}

/// No update of up to n pages in a blob of up to `blob` pages makes more nodes than `worst` has room for.
#[test]
fn worst_limits_hold_every_update() {
    for blob in (1..=40).chain([63, 64, 65, 130]) {
        for n in 1..=blob.min(64) {
            let room = Limits::worst(16, blob, 1, n).unwrap().nodes;
            let most = (1..=blob)
                .flat_map(|size| (0..size).map(move |f| (f, size)))
                .map(|(f, size)| node_count(f, n.min(size - f), size))
                .max();
            assert_eq!(Some(room), most, "{n} pages in {blob}");
        }
    }
}

/// The most pages of a blob and of an update: powers of two and others, up to half of the blob and more.
fn drawn_sizes(random: &mut Random) -> (u64, u64) {
    let blob = match random.below(4) {
        0 => random.between(1, 4_096),
        1 => random.between(1, 130),
        _ => 1 << random.below(13),
    };
    let n = match random.below(4) {
        0 => blob,
        1 => random.between(1, blob),
        _ => random.between(1, blob / 2 + 1),
    };
    (blob, n.min(blob).min(64))
}

/// Where an update of so many pages goes that leaves at most `blob`, from a blob of so many on; nowhere is at its end.
fn drawn_first(random: &mut Random, size: u64, pages: u64, blob: u64) -> Option<u64> {
    let last = size.min(blob - pages);
    match random.below(8) {
        0..=3 if last == size => None,
        4 => Some(last),
        5 => Some(random.between(0, last)),
        _ => Some((root_span(size) / 2).saturating_sub(1).min(last)),
    }
}

/// Updates of 1 to n pages that leave at most `blob`, from empty on, and from some version on along two lines: a store with the
/// limits of `worst` accepts all of them, and none makes more nodes than there is room for in each. Whether one made as many.
fn drawn_updates(random: &mut Random, blob: u64, n: u64) -> bool {
    let updates = random.between(1, 60) + (blob / n).min(200);
    let room = Limits::worst(16, blob, updates, n).unwrap();
    let mut store = Store::format(room).unwrap();
    let (mut reached, branched) = (false, random.below(updates + 1));
    for at in 0..updates {
        let mut line = LIVE;
        if at >= branched {
            if at == branched {
                let version = store.recent(LIVE).unwrap();
                assert_eq!(store.branch(LIVE, version), Ok(Line(1)));
            }
            line = Line(random.below(2));
        }
        let before = store.state();
        let pages = match random.below(4) {
            0 => random.between(1, n),
            _ => n,
        };
        let first = drawn_first(random, before.line(line).blob, pages, blob);
        let done = update(&mut store, line, first, &vec![at as u8; pages as usize]);
        assert!(done.is_ok(), "{done:?}: update {at} of {room:?}");
        let after = store.state();
        assert!(after.line(line).blob <= blob && after.places <= room.nodes);
        let made = after.places - before.places;
        assert!(made * updates <= room.nodes, "{made} nodes, of {room:?}");
        reached |= made * updates == room.nodes;
    }
    reached
}

/// No plan of updates needs more than `worst`; and most plans, where it is proved and where each first page is tried, have an
/// update that makes as many nodes as there is room for in each.
#[test]
fn worst_limits_hold_every_plan_of_updates() {
    let seed = first_seed("worst_limits_hold_every_plan_of_updates");
    let (mut random, mut met) = (Random::new(seed), [[0; 2]; 2]);
    for _ in 0..2_000 {
        let (blob, n) = drawn_sizes(&mut random);
        let proved = worst_node_count(blob, n) != 0;
        let reached = drawn_updates(&mut random, blob, n);
        met[usize::from(proved)][usize::from(reached)] += 1;
    }
    assert!(met.iter().all(|[not, reached]| not < reached), "{met:?}");
}

/// Fills a blob of r pages by appends, then writes n pages from page r/2 - 1 on, three times, with so many nodes left for these:
/// how many were accepted, and why not the next.
fn writes_in_the_middle(r: u64, n: u64, left: u64) -> (u64, Result<(), Error>) {
    let appends = (0..r).step_by(64).map(|first| (first, r.min(first + 64)));
    let appends: Vec<Planned> = appends.map(|(f, end)| planned(f, end - f, end)).collect();
    let mut room = Limits::for_updates(16, &appends).unwrap();
    room.pages += 3 * n;
    room.nodes += left;
    room.updates += 3;
    let mut store = Store::format(room).unwrap();
    for append in appends {
        assign(&mut store, LIVE, None, &vec![1; append.pages as usize]).unwrap();
    }
    for accepted in 0..3 {
        let write = assign(&mut store, LIVE, Some(r / 2 - 1), &vec![2; n as usize]);
        if let Err(refused) = write {
            return (accepted, Err(refused));
        }
    }
    assert_eq!(store.state().line(LIVE).blob, r);
    assert_eq!(store.state().places, room.nodes);
    (3, Ok(()))
}

/// Once the blob has r pages, each write of n pages from page r/2 - 1 on makes all the nodes that `worst` has room for: with one
/// fewer, the last is refused.
#[test]
fn worst_limits_are_just_enough() {
    for (r, n) in asked() {
        let worst = Limits::worst(16, r, 3, n).unwrap().nodes;
        assert_eq!(writes_in_the_middle(r, n, worst), (3, Ok(())), "({r}, {n})");
        let refused = (2, Err(Error::NodesFull));
        assert_eq!(writes_in_the_middle(r, n, worst - 1), refused, "({r}, {n})");
    }
}
