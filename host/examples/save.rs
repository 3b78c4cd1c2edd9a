//! Saves beside writers: each file is the whole model as it was at one moment, and nobody waits for the disk.
use pit_host::{Failure, Limits, Line, PageIndex, Shared, Store, Version};
use std::{env, fs, process, thread};

const LIVE: Line = Line(0);
const CREWS: u64 = 3;

/// The heights on the crews' pages in a version.
fn heights(model: &Shared, version: Version) -> Result<Vec<u8>, Failure> {
    let map = model.snapshot(LIVE, version)?;
    let height = |page| Ok(map.view(PageIndex(page))?[0]);
    (0..CREWS).map(height).collect()
}

fn main() -> Result<(), Failure> {
    let path = &env::temp_dir().join(format!("pit-example-save-{}", process::id()));
    let model = &Shared::new(Store::format(Limits::worst(256, CREWS, 151, CREWS)?)?);
    model.append_pages(LIVE, &[&[0; 256][..]; CREWS as usize])?;

    thread::scope(|shift| {
        let crew = |page| {
            shift.spawn(move || -> Result<(), Failure> {
                for height in 1..=50 {
                    model.update(LIVE, PageIndex(page), &[&[height; 256]])?;
                }
                Ok(())
            })
        };
        let crews: Vec<_> = (0..CREWS).map(crew).collect();
        for _ in 0..5 {
            let before = model.recent(LIVE)?;
            let saved = model.save(path)?; // over the file before, which stands there until the new one is whole
            assert!(before <= saved && saved <= model.recent(LIVE)?);

            let copy = Shared::load(path)?;
            assert_eq!(copy.recent(LIVE)?, saved);
            assert_eq!(heights(&copy, saved)?, heights(model, saved)?);
        }
        let mut crews = crews.into_iter();
        crews.try_for_each(|crew| crew.join().expect("no panic"))
    })?;
    let saved = model.save(path)?;
    assert_eq!(saved, Version(1 + 50 * CREWS));
    println!("saved six times beside {CREWS} crews; the file has version {saved}");

    // only what is taken is written: with far more room, and the last version alone, the file is shorter
    let length = || fs::metadata(path).expect("it is saved").len();
    let small = length();
    model.rebuild(Limits::new(256, 65_535, 131_072, 4_096), &[])?;
    assert_eq!(model.save(path)?, saved);
    assert!(length() <= small);
    println!(
        "the file of a store with room for 4,096 updates has {} bytes",
        length()
    );
    fs::remove_file(path).expect("it is saved");
    Ok(())
}
