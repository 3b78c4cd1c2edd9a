//! The library, called as a host's lines say, its answers in the step program's words; and what its store, its windows and
//! its areas hold, beside the model's.

use crate::mismatch;
use crate::model;
use crate::model::text::Program;
use crate::model::windows::MOST_WINDOWS;
use crate::scripts::Script;
use crate::support::call::{make_one, Call};
use pit_host::{worst_node_count, Areas, Error, Record, State, Store, Windows};

/// Makes the calls of a host's script, and compares every answer and what stands after it. A line that the step program
/// refuses by itself is no call.
pub fn check(script: &Script) {
    let (mut library, mut model) = (None, Program::default());
    for (at, (line, wanted)) in script.lines.iter().zip(&script.answers).enumerate() {
        let due = model.answer_to_host(line);
        assert_eq!(due, *wanted, "the model, at line {at} of {}", script.name);
        if wanted == "refused,0" {
            continue;
        }
        let got = answer(&mut library, line);
        if got != *wanted {
            mismatch(script, at, wanted, &got);
        }
        if let (Some(store), Some(model)) = (&library, &model.store) {
            let whole = at % 16 == 0 || at + 1 == script.lines.len();
            if let Err(differs) = compare(store, model, whole) {
                mismatch(script, at, wanted, &format!("{got}, and then {differs}"));
            }
        }
    }
}

/// The numbers of a WORST line, which is no call on a store.
fn worst_asked(line: &[u8]) -> Option<(u64, u64)> {
    let numbers = std::str::from_utf8(line).ok()?.strip_prefix("WORST,")?;
    let (r, n) = numbers.split_once(',')?;
    Some((r.parse().ok()?, n.parse().ok()?))
}

fn answer(library: &mut Option<Store>, line: &[u8]) -> String {
    if let Some((r, n)) = worst_asked(line) {
        return format!("worst,{}", worst_node_count(r, n));
    }
    let call = Call::of_line(line).expect("a line that is answered");
    match (&call, &mut *library) {
        (Call::Format(limits), _) => match Store::format(*limits) {
            Ok(store) => {
                *library = Some(store);
                "ok".to_string()
            }
            Err(error) => refused(error),
        },
        (call, Some(store)) => answer_of(store, call),
        _ => panic!("FORMAT comes first"),
    }
}

/// The answer of a call other than FORMAT. Refused, it leaves the store as it was; and only five calls write an area.
fn answer_of(store: &mut Store, call: &Call) -> String {
    let before = store.clone();
    let done = make_one(store, call);
    let writes = ["BEGIN", "PUT", "WRITE", "APPEND", "WEAVE"];
    let may_write = done.is_ok() && writes.contains(&call.name());
    if !may_write && store.areas() != before.areas() {
        return "areas that have changed".to_string();
    }
    if done.is_err() && *store != before {
        return "a store that has changed".to_string();
    }
    done.map_or_else(refused, |answer| call.answered(&answer))
}

fn refused(error: Error) -> String {
    format!("refused,{}", error.number())
}

// What stands after a call.

/// Compares a store with the model: its numbers, its windows and, where the whole of it is asked for, its areas.
fn compare(store: &Store, model: &model::Store, whole: bool) -> Result<(), String> {
    let (got, due) = (numbers(&store.state()), model.numbers());
    if got != due {
        return Err(format!("the store's numbers {got:?}, not {due:?}"));
    }
    let (got, due) = (places(&store.windows()), due_places(model));
    if got != due {
        return Err(format!("the windows {got:?}, not {due:?}"));
    }
    if whole && areas(store.areas()) != model.areas() {
        return Err("areas that differ".to_string());
    }
    Ok(())
}

fn numbers(s: &State) -> Vec<u64> {
    let mut numbers = vec![s.size, s.pages, s.nodes, s.updates, s.tickets];
    numbers.extend([s.taken, s.assigned, s.places, s.begun, s.sources]);
    numbers.extend(s.lines);
    numbers
}

/// The ends of the windows, place by place, those not in use too.
fn places(windows: &Windows) -> Vec<(u64, u64)> {
    let ends = windows
        .places
        .iter()
        .map(|w| (u64::from(w.from), u64::from(w.to)));
    ends.collect()
}

fn due_places(model: &model::Store) -> Vec<(u64, u64)> {
    let mut ends: Vec<_> = model.windows.iter().map(|w| (w.from, w.to)).collect();
    ends.resize(MOST_WINDOWS, (0, 0));
    ends
}

fn areas(areas: &Areas) -> model::image::Areas {
    model::image::Areas {
        pages: areas.pages().to_vec(),
        nodes: areas.nodes().to_vec(),
        records: areas.register().iter().map(record).collect(),
    }
}

fn record(r: &Record) -> Vec<u64> {
    let mut numbers = vec![r.n, r.number, r.put, r.update, r.ticket, r.name, r.f];
    numbers.extend([r.last, r.top, r.past, r.span, r.size, r.count, r.woven]);
    let e = &r.entries;
    numbers.extend([e.from0, e.from4, e.from8, e.from12]);
    numbers
}
