//! A model that is kept in a folder: what a call has returned is there after the process has ended, however it ended.
use pit_host::{
    Durable, Failure, FileError, Limits, Line, Options, PageIndex, Store, SyncAt, Version,
};
use std::{env, fs, process, time::Duration};

const LIVE: Line = Line(0);

fn main() -> Result<(), Failure> {
    let folder = &env::temp_dir().join(format!("pit-example-durable-{}", process::id()));
    let store = Store::format(Limits::worst(256, 64, 100, 4)?)?;

    // the usual choice: a version is on the disk before anybody sees it
    let model = Durable::create(folder, store, Options::new())?;
    model.append_pages(LIVE, &[&[100; 256][..]; 4])?;
    let ticket = model.begin(1)?;
    model.put(ticket, 0, &[50; 256])?;
    let (written, synced) = model.entries();
    assert_eq!((written, synced), (10, 8)); // a power cut could take the last two, a kill neither
    println!(
        "{written} calls in the journal, {synced} of them synced; the shovel's update is in work"
    );
    drop(model); // or the process is killed: nothing is left to be done for the folder

    let (model, opened) = Durable::open(folder, Options::new())?;
    assert_eq!((opened.entries, &opened.cut), (10, &None));
    println!("opened from {opened}");
    model.write(LIVE, ticket, PageIndex(2))?; // the update goes on
    assert_eq!(model.finish(ticket)?, Version(2));

    // the journal grows until the store is saved anew, by itself at the length in the options, or when asked to
    assert_eq!(model.checkpoint()?, Version(2));
    model.update(LIVE, PageIndex(0), &[&[70; 256]])?;
    let refused = Durable::open(folder, Options::new()).map(drop);
    assert!(matches!(
        refused,
        Err(Failure::File(FileError::InUse { .. }))
    ));
    println!("one at a time: {}", refused.unwrap_err());
    drop(model);

    // every call on the disk before it returns
    let (model, opened) = Durable::open(folder, Options::new().sync(SyncAt::EachCall))?;
    assert_eq!((opened.generation, opened.entries), (2, 5));
    println!("opened from {opened}");
    model.put(model.begin(1)?, 0, &[60; 256])?;
    let (written, synced) = model.entries();
    assert_eq!(written, synced);
    drop(model);

    // or no call waits for the disk: a power cut takes a second at most, unless it is synced before
    let lazy = Options::new().sync(SyncAt::Every(Duration::from_secs(1)));
    let (model, _) = Durable::open(folder, lazy)?;
    let version = model.update(LIVE, PageIndex(1), &[&[80; 256]])?;
    model.sync()?;
    let (written, synced) = model.entries();
    assert!(version == Version(4) && written == synced);
    println!("version {version} is on the disk");
    drop(model);
    fs::remove_dir_all(folder).expect("nobody has it open");
    Ok(())
}
