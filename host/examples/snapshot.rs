//! Trucks that look often: each holds a snapshot, which knows where its pages lie, and takes no lock to look or to go on.
use pit_host::{
    ByteOffset, Error, Failure, Limits, Line, PageIndex, Shared, Snapshot, Store, Version,
};
use std::thread;

const LIVE: Line = Line(0);
const PAGES: usize = 32;

/// A truck's ride: it looks so often, and whichever version it has, all heights in it are that version's. Gives the last one.
fn ride(mut map: Snapshot, looks: u64) -> Result<Version, Error> {
    for _ in 0..looks {
        map.advance()?;
        for page in (0..map.pages()).map(PageIndex) {
            let heights = map.view(page)?; // where they lie, until the snapshot goes on
            assert!(heights
                .iter()
                .all(|height| u64::from(*height) == map.version().0));
        }
    }
    Ok(map.version())
}

fn main() -> Result<(), Failure> {
    let limits = Limits::worst(256, PAGES as u64, 103, PAGES as u64)?;
    let model = &Shared::new(Store::format(limits)?);
    model.append_pages(LIVE, &[&[1; 256][..]; PAGES])?;
    let first = &model.snapshot(LIVE, Version(1))?.filled()?;

    // a drone surveys the whole pit again and again, and two trucks follow it
    thread::scope(|shift| {
        let trucks = [(), ()].map(|()| shift.spawn(|| ride(first.clone(), 300)));
        for height in 2..=100 {
            model.update(LIVE, PageIndex(0), &[&[height; 256][..]; PAGES])?;
        }
        for truck in trucks {
            assert!(truck.join().expect("no panic")? <= Version(100));
            println!("a truck looked 300 times, and saw no version half");
        }
        Ok::<_, Error>(())
    })?;

    // what one holds stays, whatever is published meanwhile
    let mut bytes = [0; 300];
    first.read(ByteOffset(0), &mut bytes)?;
    assert!(first.version() == Version(1) && bytes == [1; 300]);
    println!("the first snapshot is still version {}", first.version());

    // a truck with little air time fetches what has changed: not the page that the grader resent as it was
    let mut map = first.clone();
    assert!(map.advance()? && map.version() == Version(100));
    let shown = map.clone();
    model.update(LIVE, PageIndex(4), &[&[100; 256], &[7; 256]])?;
    model.append_pages(LIVE, &[&[8; 256]])?;
    assert!(map.advance()? && map.version() == Version(102));
    let changed = map.changed(&shown)?;
    assert_eq!(changed, [PageIndex(5), PageIndex(PAGES as u64)]);
    println!(
        "from version 100 to 102 there are {} pages to fetch",
        changed.len()
    );
    Ok(())
}
