//! `pit verify`: everything in a folder read and checked.

use crate::info::{at_end, many};
use crate::progress::Progress;
use crate::reading::Reading;
use crate::remake::remade;
use crate::Fault;
use pit_host::{inspect, inspect_earlier, Comparison, Earlier, Inspection, Line, Shared, Version};
use std::path::Path;

/// What was checked, a line each; or the first fault.
pub fn verify(folder: &Path) -> Result<String, Fault> {
    let progress = Progress::new("the journal's calls are made again");
    let seen = inspect(folder)?;
    let mut lines = Vec::new();
    if let Some(cut) = &seen.found.cut {
        let end = at_end(cut, seen.open_by);
        lines.push(format!("at the journal's end: {end}"));
    }
    let mut entries = seen.found.entries;
    for earlier in inspect_earlier(folder)? {
        lines.push(compared(&earlier)?);
        entries += earlier.entries;
    }
    progress.goes_on("all updates are made again", 0);
    check_areas(&seen.store)?;
    let (all, gone) = versions(&seen)?;
    if gone > 0 {
        let gone = many(gone, "version was", "versions were");
        lines.push(format!("{gone} not kept when the store was rebuilt"));
    }
    let pages = Reading::new(&seen.store, &all, &progress).run()?;
    let versions = all.len();
    let verdict = format!("verified: {versions} versions, {pages} pages, {entries} entries\n");
    lines.push(verdict);
    Ok(lines.join("\n"))
}

/// What came of an earlier saved store that is still there.
fn compared(earlier: &Earlier) -> Result<String, String> {
    let Earlier {
        generation,
        next,
        entries,
        ..
    } = earlier;
    match &earlier.comparison {
        Comparison::Same => Ok(format!(
            "store-{generation} and {entries} entries after it make store-{next}"
        )),
        Comparison::Differs(difference) => Err(format!(
            "store-{generation} and {entries} entries after it do not make store-{next}: {difference}"
        )),
        Comparison::Rebuilt => Ok(format!(
            "store-{generation} was rebuilt into store-{next}"
        )),
        Comparison::NoJournal(journal) => Ok(format!(
            "store-{generation} is left over, and journal-{journal} is gone: not compared"
        )),
        _ => Ok(format!("store-{generation} is left over: not compared")),
    }
}

/// The areas are what the updates of the register leave.
fn check_areas(store: &Shared) -> Result<(), String> {
    let store = store.to_store();
    let remade = remade(&store)
        .map_err(|refused| format!("the register's updates cannot be made again: {refused}"))?;
    match store.difference(&remade) {
        None => Ok(()),
        Some(difference) => Err(format!(
            "the areas are not what the register's updates leave: {difference}"
        )),
    }
}

/// All published versions of all lines; and how many are not there any more.
fn versions(seen: &Inspection) -> Result<(Vec<(Line, Version)>, u64), Fault> {
    let (mut all, mut gone) = (Vec::new(), 0);
    for line in (0..seen.state.begun).map(Line) {
        let versions = seen.store.versions(line)?;
        let recent = seen.store.recent(line)?.0;
        let missing = recent.saturating_sub(versions.len() as u64);
        gone = u64::saturating_add(gone, missing);
        all.extend(versions.into_iter().map(|version| (line, version)));
    }
    Ok((all, gone))
}
