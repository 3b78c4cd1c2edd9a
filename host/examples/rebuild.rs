//! A store that gets full: it is seen beforehand, and rebuilt into a larger one while everybody goes on.
use pit_host::{Error, Failure, Limits, Line, PageIndex, Shared, Store, Version};

const LIVE: Line = Line(0);

/// The height on the first page of a version.
fn height(model: &Shared, version: u64) -> Result<u8, Error> {
    model.with_view(LIVE, Version(version), PageIndex(0), |page| page[0])
}

fn main() -> Result<(), Failure> {
    let limits = Limits::worst(256, 8, 20, 2)?;
    let model = Shared::new(Store::format(limits)?);
    model.append_pages(LIVE, &[&[1; 256], &[1; 256]])?;
    let truck = model.snapshot(LIVE, Version(1))?.filled()?;

    // a host asks for the room now and then, and acts while there is some: here it does not
    let mut heights = 2..;
    while model.room().at_present_mix > 0 {
        let height = [heights.next().expect("no end"); 256];
        model.update(LIVE, PageIndex(0), &[&height])?;
    }
    assert_eq!(model.recent(LIVE)?, Version(20));
    let refused = model.update(LIVE, PageIndex(0), &[&[99; 256]]);
    assert_eq!(refused, Err(Error::RegisterFull));
    println!("full at version 20: {}", refused.unwrap_err());

    // loads are booked to versions 3 and 8, and a planner has begun from version 5
    let plan = model.branch(LIVE, Version(5))?;
    let booked = [3, 8].map(|version| (LIVE, Version(version)));
    let larger = Limits::worst(256, 8, 200, 2)?;
    let kept = model.rebuild(larger, &booked)?;
    let of = |line| {
        kept.iter()
            .filter(move |kept| kept.0 == line)
            .map(|kept| kept.1 .0)
    };
    assert!(of(LIVE).eq([3, 5, 8, 20]) && of(plan).eq([3, 5]));
    println!("rebuilt, with room for {} updates", model.room().updates);

    // numbers stay: what is kept reads as it did, the rest is refused, and the next version is the next
    assert_eq!(
        [3, 5, 8, 20].map(|version| height(&model, version)),
        [3, 5, 8, 20].map(Ok)
    );
    assert_eq!(height(&model, 4), Err(Error::NotPublished));
    assert_eq!(
        model.update(LIVE, PageIndex(0), &[&[21; 256]])?,
        Version(21)
    );
    assert_eq!(model.update(plan, PageIndex(1), &[&[99; 256]])?, Version(6));
    assert_eq!(model.versions(LIVE)?, [3, 5, 8, 20, 21].map(Version));
    println!("versions 3, 5, 8 and 20 read as they did, and version 21 came after them");

    // the second page has been the same since version 1; that is known from version 20 on
    assert_eq!(model.stamp(LIVE, Version(21), PageIndex(1))?, Version(20));
    // and who holds a snapshot goes on with it, also of a version that was not kept
    assert_eq!(truck.view(PageIndex(0))?, [1; 256]);
    println!("the truck still has version {}", truck.version());
    Ok(())
}
