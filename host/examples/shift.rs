//! A shift at the mine: crews write the road model beside each other, a truck follows it, a load is booked to a version. While
//! a bench is being fired no new version appears.
use pit_host::{
    ByteOffset, Error, Limits, Line, Minute, PageIndex, Published, Shared, Store, Version,
};
use std::{ops::Range, thread};

/// The live model's line. `plan.rs` shows another beside it.
const LIVE: Line = Line(0);

/// The site's clock says Tuesday, 13:00. A host with a clock of its own asks `Minute::of(SystemTime::now(), 600)`.
const NOW: Minute = Minute(2_220);

/// A crew's updates of its pages, one for each height. A version waits only for those before it.
fn work(model: &Shared, pages: Range<u64>, heights: Range<u8>, now: Minute) -> Result<(), Error> {
    for height in heights {
        let ticket = model.begin(pages.end - pages.start)?;
        for i in 0..pages.end - pages.start {
            model.put(ticket, i, &[height; 256])?;
        }
        for _ in 0..model.write(LIVE, ticket, PageIndex(pages.start))?.nodes {
            model.weave(ticket)?;
        }
        while model.publish(LIVE, now)?.version().is_some() {}
    }
    Ok(())
}

/// What a truck shows: the pages as of a version.
struct Screen {
    version: Version,
    pages: Vec<Vec<u8>>,
}

/// Brings a truck's screen up to date, fetching just the pages that have changed since its version: those whose stamps are
/// above it. Answers how many.
fn follow(model: &Shared, screen: &mut Screen) -> Result<u64, Error> {
    let (recent, mut fetched) = (model.recent(LIVE)?, 0);
    for (page, shown) in (0..).map(PageIndex).zip(&mut screen.pages) {
        if model.stamp(LIVE, recent, page)? > screen.version {
            *shown = model.with_view(LIVE, recent, page, <[u8]>::to_vec)?;
            fetched += 1;
        }
    }
    screen.version = recent;
    Ok(fetched)
}

fn main() -> Result<(), Error> {
    let limits = Limits::worst(256, 32, 43, 32).expect("43 updates of 32 pages fit");
    let model = &Shared::new(Store::format(limits)?);
    work(model, 0..32, 100..101, NOW)?;
    let (booked, mut loaded) = (model.recent(LIVE)?, [0; 32 * 256]);
    model.read(LIVE, booked, ByteOffset(0), &mut loaded)?;
    println!("surveyed; a load is booked to version {booked}");
    let mut screen = Screen {
        version: Version(0),
        pages: vec![vec![]; 32],
    };
    let (drone, shovel, grader, planner) = (0..8, 6..8, 4..10, 20..24);
    thread::scope(|shift| {
        let crew = |pages| shift.spawn(move || work(model, pages, 1..11, NOW));
        let crews = [drone, shovel, grader, planner].map(crew);
        let truck = shift.spawn(|| (0..50).try_for_each(|_| follow(model, &mut screen).map(drop)));
        let mut ends = crews.into_iter().chain([truck]);
        ends.try_for_each(|end| end.join().expect("no panic"))
    })?;
    let (recent, mut now) = (model.recent(LIVE)?, [0; 32 * 256]);
    model.read(LIVE, recent, ByteOffset(0), &mut now)?;
    assert!(recent == Version(41) && follow(model, &mut screen)? <= 14); // pages that crews changed
    assert!(follow(model, &mut screen)? == 0 && screen.pages.concat() == now);
    println!("40 updates later the truck shows version {recent}");

    // the grader resends its pages as they stand, but for the last one: the truck fetches that alone
    let (first, mut resent) = (4, screen.pages[4..10].to_vec());
    resent[5] = vec![77; 256];
    let ticket = model.begin(6)?;
    for (i, page) in (0..).zip(&resent) {
        model.put(ticket, i, page)?;
    }
    for _ in 0..model.write(LIVE, ticket, PageIndex(first))?.nodes {
        model.weave(ticket)?;
    }
    let recent = Version(recent.0 + 1);
    assert_eq!(model.publish(LIVE, NOW)?, Published::Now(recent));
    assert!(follow(model, &mut screen)? == 1 && screen.pages[9] == [77; 256]);
    println!(
        "six pages resent in version {recent}, of which the truck fetched the one that changed"
    );

    // a bench is fired on Tuesdays from 14:00 until 14:20; the shovel goes on meanwhile
    model.set_windows("2280,2300\n")?;
    work(model, 6..8, 50..51, Minute(2_280))?;
    assert_eq!(model.publish(LIVE, Minute(2_299))?, Published::Held);
    assert!(follow(model, &mut screen)? == 0 && model.recent(LIVE)? == recent);
    println!("the blast: version {recent} stays on the screen");
    assert_eq!(
        model.publish(LIVE, Minute(2_300))?,
        Published::Now(Version(43))
    );
    assert!(follow(model, &mut screen)? == 2 && screen.pages[6] == [50; 256]);
    println!("after it the truck shows version 43");

    model.read(LIVE, booked, ByteOffset(0), &mut now)?;
    assert!(now == loaded && now == [100; 32 * 256]);
    println!("weighbridge: version {booked} reads as it did when the load was booked");
    Ok(())
}
