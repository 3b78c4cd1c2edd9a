//! Whole updates in one call; one whose writer died, finished by somebody else; and a truck that waits for a version.
use pit_host::{Error, Failure, Limits, Line, Minute, PageIndex, Shared, Store, Version};
use std::{thread, time::Duration};

const LIVE: Line = Line(0);

fn main() -> Result<(), Failure> {
    let model = &Shared::new(Store::format(Limits::worst(256, 64, 40, 4)?)?);
    model.append_pages(LIVE, &[&[100; 256][..]; 4])?;

    // two crews beside each other: each call is a version, published when it returns, or as soon as those before it are
    thread::scope(|shift| {
        let crew = |page| {
            shift.spawn(move || -> Result<(), Error> {
                for height in 1..=10 {
                    let version = model.update(LIVE, PageIndex(page), &[&[height; 256]])?;
                    assert!(model.recent(LIVE)? >= version);
                }
                Ok(())
            })
        };
        let mut crews = [crew(0), crew(3)].into_iter();
        crews.try_for_each(|crew| crew.join().expect("no panic"))
    })?;
    assert_eq!(model.recent(LIVE)?, Version(21));
    println!("20 updates in 20 calls");

    // an update that would be refused takes no room: the model ends with page 3
    let room = model.room();
    assert_eq!(
        model.update(LIVE, PageIndex(5), &[&[1; 256]]),
        Err(Error::PastEnd)
    );
    assert_eq!(model.room(), room);

    // a drone begins an update, gets version 22, and is gone; version 23 waits for it, and a truck for version 23
    thread::scope(|shift| {
        // for ever with `wait_published`; here for a minute at most
        let minute = Duration::from_secs(60);
        let truck = shift.spawn(move || model.wait_published_for(LIVE, Version(23), minute));
        let drone = shift.spawn(|| -> Result<(), Error> {
            let ticket = model.begin(2)?;
            (0..2).try_for_each(|i| model.put(ticket, i, &[60; 256]))?;
            model.write(LIVE, ticket, PageIndex(1)).map(drop)
        });
        drone.join().expect("no panic")?;
        assert_eq!(
            model.update(LIVE, PageIndex(0), &[&[70; 256]])?,
            Version(23)
        );
        assert_eq!(model.recent(LIVE)?, Version(21));

        // a host looks after a while for tickets that nobody touches; here at once
        for left in model.abandoned(Duration::ZERO) {
            println!(
                "ticket {} has {} nodes left to weave",
                left.ticket, left.nodes_left
            );
            assert_eq!(left.version, Some((LIVE, Version(22))));
            assert_eq!(model.finish(left.ticket)?, Version(22));
        }
        assert!(truck.join().expect("no panic")?);
        Ok::<_, Failure>(())
    })?;
    assert_eq!(model.recent(LIVE)?, Version(23));
    println!("the truck has version 23");

    // updates are published by the site's clock; the usual one is the system's, in UTC
    model.set_clock(|| Minute(2_285)); // Tuesday, 14:05
    model.set_windows("2280,2300\n")?; // a bench is fired on Tuesdays from 14:00 until 14:20
    let held = model.update(LIVE, PageIndex(0), &[&[80; 256]])?;
    assert!(!model.wait_published_for(LIVE, held, Duration::from_millis(1))?);
    model.set_clock(|| Minute(2_300));
    model.update(LIVE, PageIndex(0), &[&[81; 256]])?; // publishes what is due
    assert!(model.wait_published_for(LIVE, held, Duration::ZERO)?);
    println!("version {held} was held until after the blast");
    Ok(())
}
