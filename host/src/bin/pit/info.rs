//! `pit info`: what a folder holds.

use crate::Fault;
use pit_host::{inspect, Cut, Inspection, Line, OpenBy, OpenTicket};
use std::path::Path;

pub fn info(folder: &Path) -> Result<String, Fault> {
    let seen = inspect(folder)?;
    let mut rows = Rows::default();
    rows.row("folder", folder.display().to_string());
    files(&mut rows, &seen);
    capacities(&mut rows, &seen);
    for line in (0..seen.state.begun).map(Line) {
        rows.row(&format!("line {line}"), of_line(&seen, line)?);
    }
    let open = seen.store.open_tickets();
    rows.row("in work", many(open.len() as u64, "ticket", "tickets"));
    for open in &open {
        rows.row(&format!("ticket {}", open.ticket), in_work(open));
    }
    Ok(rows.0)
}

/// A text of rows, each with a name.
#[derive(Default)]
struct Rows(String);

impl Rows {
    fn row(&mut self, name: &str, value: String) {
        let name = format!("{name}:");
        self.0 += &format!("{name:<12} {value}\n");
    }
}

/// Who has the folder open, and what files it has.
fn files(rows: &mut Rows, seen: &Inspection) {
    let found = &seen.found;
    let open_by = match seen.open_by {
        OpenBy::Nobody => "nobody".into(),
        OpenBy::Process(process) => format!("process {process}"),
        _ => "not known: the system does not tell".into(),
    };
    rows.row("open by", open_by);
    let generation = found.generation;
    let journals = (generation..).zip(0..found.journals);
    let journals: Vec<String> = journals.map(|(g, _)| format!("journal-{g}")).collect();
    let journals = journals.join(", ");
    rows.row(
        "generation",
        format!("{generation}: store-{generation}, then {journals}"),
    );
    let (length, last) = (seen.journal_length, seen.last_entry);
    let entries = many(found.entries, "entry", "entries");
    rows.row(
        "journal",
        format!("{length} bytes, {entries} since the saved store; the last is entry {last}"),
    );
    let cut = found.cut.as_ref();
    let cut = cut.map(|cut| at_end(cut, seen.open_by));
    rows.row(
        "at its end",
        cut.unwrap_or_else(|| "nothing to be cut off".into()),
    );
}

/// What is not whole at the end of a journal.
pub fn at_end(cut: &Cut, open_by: OpenBy) -> String {
    let Cut { bytes, offset, .. } = cut;
    if let OpenBy::Process(_) = open_by {
        return format!("{bytes} bytes from byte {offset} on that are being written");
    }
    let (entry, how) = (cut.after + 1, if cut.torn { "torn" } else { "damaged" });
    let what = format!(
        "{bytes} bytes from byte {offset} on, which opening cuts off: entry {entry} is {how}"
    );
    match cut.whole {
        0 => what,
        whole => {
            format!("{what}, and {whole} whole ones behind it were never known to be on the disk")
        }
    }
}

/// The limits and what is left of them, and the windows.
fn capacities(rows: &mut Rows, seen: &Inspection) {
    let (limits, room) = (seen.store.limits(), seen.store.room());
    let all = format!(
        "{} pages of {} bytes, {} nodes, {} updates, 16 lines",
        limits.pages, limits.page_size, limits.nodes, limits.updates
    );
    rows.row("limits", all);
    let left = format!(
        "{} pages, {} nodes, {} updates, {} lines; {} more updates as those before",
        room.pages, room.nodes, room.updates, room.lines, room.at_present_mix
    );
    rows.row("room", left);
    let windows = seen.store.windows();
    let list: Vec<String> = windows.list().iter().map(ToString::to_string).collect();
    let list = match list.is_empty() {
        true => "none".into(),
        false => list.join(" "),
    };
    rows.row("windows", list);
}

fn of_line(seen: &Inspection, line: Line) -> Result<String, Fault> {
    let (state, recent) = (seen.state.line(line), seen.store.recent(line)?);
    let in_work = state.assigned.saturating_sub(state.published); // by the store's own numbers
    let assigned = recent.0.saturating_add(in_work);
    let bytes = seen.store.size(line, recent)?;
    let pages = many(bytes / seen.state.size, "page", "pages");
    let mut text =
        format!("version {recent} published, {assigned} assigned; {bytes} bytes, {pages}");
    if line > Line(0) {
        text += &format!("; from line {}", state.source);
    }
    let kept = seen.store.versions(line)?.len() as u64;
    if recent.0 > kept {
        let gone = many(
            recent.0 - kept,
            "earlier version was",
            "earlier versions were",
        );
        text += &format!("; {gone} not kept");
    }
    Ok(text)
}

fn in_work(open: &OpenTicket) -> String {
    match open.version {
        None => format!("{} of {} pages put, no version", open.put, open.pages),
        Some((line, version)) => {
            let nodes = many(open.nodes_left, "node", "nodes");
            format!("version {version} of line {line}, {nodes} left to weave")
        }
    }
}

/// So many of something.
pub fn many(count: u64, one: &str, more: &str) -> String {
    match count {
        1 => format!("1 {one}"),
        _ => format!("{count} {more}"),
    }
}
