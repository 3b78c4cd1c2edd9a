//! Whole updates in one step, for the tests of the library.

use pit_host::{
    Assigned, Error, Limits, Line, Minute, PageIndex, Published, Storage, Store, Ticket, Version,
};

/// The line that begins with the store.
pub const LIVE: Line = Line(0);
/// When versions are published, where no window matters.
pub const ANY_TIME: Minute = Minute(0);

/// Small limits: pages of 16 bytes.
pub fn limits(pages: u64, nodes: u64, updates: u64) -> Limits {
    Limits::new(16, pages, nodes, updates)
}

/// A ticket whose pages are all put, each filled with its byte.
pub fn put_all<A: Storage>(store: &mut Store<A>, fills: &[u8]) -> Result<Ticket, Error> {
    let ticket = store.begin(fills.len() as u64)?;
    let page_size = store.state().size as usize;
    for (i, fill) in (0..).zip(fills) {
        store.put(ticket, i, &vec![*fill; page_size])?;
    }
    Ok(ticket)
}

/// A write at page `at`, or an append where there is none, with every page put.
pub fn assign<A: Storage>(
    store: &mut Store<A>,
    line: Line,
    at: Option<u64>,
    fills: &[u8],
) -> Result<(Ticket, Assigned), Error> {
    let ticket = put_all(store, fills)?;
    let assigned = match at {
        Some(first) => store.write(line, ticket, PageIndex(first))?,
        None => store.append(line, ticket)?,
    };
    Ok((ticket, assigned))
}

/// An update from BEGIN to PUBLISH.
pub fn update<A: Storage>(
    store: &mut Store<A>,
    line: Line,
    at: Option<u64>,
    fills: &[u8],
) -> Result<Version, Error> {
    let (ticket, assigned) = assign(store, line, at, fills)?;
    for _ in 0..assigned.nodes {
        store.weave(ticket)?;
    }
    let published = store.publish(line, ANY_TIME)?;
    assert_eq!(published, Published::Now(assigned.version));
    Ok(assigned.version)
}

/// The first byte of each page of a version.
pub fn fills<A: Storage>(store: &Store<A>, line: Line, version: Version) -> Result<Vec<u8>, Error> {
    let pages = store.size(line, version)? / store.state().size;
    (0..pages)
        .map(|page| Ok(store.view(line, version, PageIndex(page))?[0]))
        .collect()
}

/// A store with three versions: pages 0 to 3, then 1 and 2, then an append of one.
pub fn of_three_versions() -> Store {
    let mut store = Store::format(limits(16, 64, 8)).expect("limits in range");
    for (at, pages) in [
        (None, &[1u8, 2, 3, 4][..]),
        (Some(1), &[5, 6]),
        (None, &[7]),
    ] {
        update(&mut store, LIVE, at, pages).expect("room for all");
    }
    store
}
