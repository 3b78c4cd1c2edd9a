//! A shift that plans: the road planner tries next month's ramp on a line of its own while the crews go on with the live
//! model. The trucks, which follow the live line, see nothing of it.
use pit_host::{Error, Limits, Line, Minute, PageIndex, Shared, Store, Version};
use std::{ops::Range, thread};

/// The line that the crews write and the trucks read.
const LIVE: Line = Line(0);

/// Updates of some pages on a line, one for each height.
fn work(model: &Shared, line: Line, pages: Range<u64>, heights: Range<u8>) -> Result<(), Error> {
    for height in heights {
        let ticket = model.begin(pages.end - pages.start)?;
        for i in 0..pages.end - pages.start {
            model.put(ticket, i, &[height; 256])?;
        }
        for _ in 0..model.write(line, ticket, PageIndex(pages.start))?.nodes {
            model.weave(ticket)?;
        }
        while model.publish(line, Minute(0))?.version().is_some() {} // the site has no windows
    }
    Ok(())
}

/// The height on each page of a version.
fn heights(model: &Shared, line: Line, version: Version) -> Result<Vec<u8>, Error> {
    let pages = model.size(line, version)? / 256;
    (0..pages)
        .map(|page| model.with_view(line, version, PageIndex(page), |bytes| bytes[0]))
        .collect()
}

fn main() -> Result<(), Error> {
    let limits = Limits::worst(256, 32, 32, 8).expect("32 updates of 8 pages fit");
    let model = &Shared::new(Store::format(limits)?);
    work(model, LIVE, 0..8, 100..101)?;
    work(model, LIVE, 8..16, 100..101)?;

    let surveyed = model.recent(LIVE)?;
    let plan = model.branch(LIVE, surveyed)?;
    assert!(heights(model, plan, surveyed)? == [100; 16]);
    println!("line {plan} begins with version {surveyed} of the live model");

    // ten updates on the live line, and ten on the plan's, among them a ramp past the model's end
    thread::scope(|shift| {
        let grader = shift.spawn(|| work(model, LIVE, 4..8, 1..11));
        let planner = shift.spawn(|| {
            work(model, plan, 14..18, 201..211)?;
            assert_eq!(model.recent(plan)?, Version(surveyed.0 + 10));
            Ok(())
        });
        let ends = [grader, planner].map(|end| end.join().expect("no panic"));
        ends.into_iter().collect::<Result<(), Error>>()
    })?;

    let (live, planned) = (model.recent(LIVE)?, model.recent(plan)?);
    let (road, ramp) = (heights(model, LIVE, live)?, heights(model, plan, planned)?);
    assert!(road.len() == 16 && road[4..8] == [10; 4]);
    assert!((1..=live.0).all(|v| {
        let seen = heights(model, LIVE, Version(v));
        seen.map_or(false, |seen| seen.iter().all(|height| *height < 200))
    }));
    println!(
        "the trucks are at version {live}, {} pages, and saw no ramp",
        road.len()
    );
    assert!(ramp.len() == 18 && ramp[14..] == [210; 4] && ramp[..14] == [100; 14]);
    println!("the plan is at version {planned}, {} pages", ramp.len());

    let second = model.branch(plan, planned)?; // another idea, from the first one
    work(model, second, 17..18, 220..221)?;
    assert!(heights(model, plan, planned)? == ramp);
    println!("line {second} goes on from there; line {plan} reads as before");
    Ok(())
}
