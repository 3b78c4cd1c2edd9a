//! Calls on any state, any windows and any areas, and what must hold after each.

use crate::calls::{ends, fresh};
use crate::memory::{Fenced, Memory};
use crate::stamps;
use crate::support::call::Call;
use crate::windows::inside;
use pit_host::{
    ByteOffset, Error, Limits, Line, Minute, PageIndex, PartsMut, Published, Record, State, Store,
    Ticket, Version, Windows,
};

/// What the bytes to put are, and a buffer before READ.
pub const BYTE: u8 = 0xb5;

/// Where two areas differ.
fn differing<T: PartialEq>(old: &[T], new: &[T]) -> Vec<usize> {
    let pairs = old.iter().zip(new).enumerate();
    let differ = pairs.filter(|(_, (old, new))| old != new);
    differ.map(|(at, _)| at).collect()
}

/// A complaint unless the condition holds.
fn claim(condition: bool, otherwise: &str) -> Result<(), String> {
    if condition {
        Ok(())
    } else {
        Err(otherwise.to_string())
    }
}

/// A state, windows and areas, which need not belong together.
#[derive(Clone)]
pub struct Scene {
    pub state: State,
    pub windows: Windows,
    pub memory: Memory,
}

impl Scene {
    /// Makes a call and gives the number of its refusal, 0 where it was accepted; or a complaint.
    pub fn make(&mut self, call: &Call) -> Result<u64, String> {
        let before = self.clone();
        let untouched = Fenced::new(&call.bytes(), 0xfe);
        let mut buffer = untouched.clone();
        let refusal = self.perform(call, &mut buffer)?;

        let (old, new) = (&before.memory, &self.memory);
        claim(old.fences() == new.fences(), "written outside the areas")?;
        claim(
            buffer.fences() == untouched.fences(),
            "written outside the buffer",
        )?;
        let [pages, nodes, register] = call.writes().map(|writes| writes && refusal == 0);
        claim(pages || old.pages == new.pages, "pages changed")?;
        claim(nodes || old.nodes == new.nodes, "nodes changed")?;
        claim(register || old.register == new.register, "register changed")?;
        let moved = refusal == 0 && call.moves(&before.state, &self.state);
        claim(moved || self.state == before.state, "state changed")?;
        let windows = match refusal {
            0 => call.sets(&before.windows),
            _ => before.windows,
        };
        claim(self.windows == windows, "not the windows that are due")?;
        let filled = match *call {
            Call::Read(_, _, _, len, _) if refusal == 0 => len as usize,
            _ => 0,
        };
        claim(
            buffer.part()[filled..] == untouched.part()[filled..],
            "bytes or buffer changed",
        )?;
        let may = call.may_answer(&before);
        claim(may.contains(&refusal), &format!("{refusal}, not {may:?}"))?;
        if refusal == 0 {
            self.check_written(call, &before)?;
        }
        Ok(refusal)
    }

    /// What an accepted call has written stands where it belongs, and nothing else has changed.
    fn check_written(&self, call: &Call, before: &Scene) -> Result<(), String> {
        let (old, new) = (&before.memory, &self.memory);
        let records = differing(old.register.part(), new.register.part());
        let most = match call {
            Call::Format(..) => return Ok(()),       // it has been looked at
            Call::Write(..) | Call::Append(..) => 3, // the ticket's, the update's and the version's
            _ => 1,
        };
        claim(records.len() <= most, "too many records changed")?;
        if let Call::Put(ticket, i, bytes) = call {
            let number = old.register.part()[ticket.0 as usize - 1].number + i;
            let mut pages = old.pages.clone();
            let page = pages.parts_mut()[(before.state.size * number) as usize..].iter_mut();
            page.take(bytes.len()).for_each(|byte| *byte = BYTE);
            claim(*new.pages.part() == *pages.part(), "not the page put")?;
        }
        let nodes = differing(old.nodes.part(), new.nodes.part());
        claim(
            nodes.iter().all(|at| at / 2 == nodes[0] / 2),
            "too many nodes changed",
        )?;
        Ok(())
    }

    fn perform(&mut self, call: &Call, buffer: &mut Fenced<u8>) -> Result<u64, String> {
        if let Call::Format(limits) = *call {
            return self.format(limits);
        }
        let mut store = Store::resume(self.state, self.windows, self.memory.parts_mut());
        if let Call::Stamp(line, v, page) = *call {
            let stamp = store.stamp(line, v, page);
            self.compare_stamp(stamp, [line.0, v.0, page.0])?;
            return Ok(stamp.err().map_or(0, |refused| refused.number()));
        }
        let done = call.perform(&mut store, buffer)?;
        (self.state, self.windows) = (store.state(), store.windows());
        Ok(done.err().map_or(0, |refused| refused.number()))
    }

    /// STAMP, which changes nothing, answers as it is defined, whatever the areas hold.
    fn compare_stamp(&self, got: Result<Version, Error>, of: [u64; 3]) -> Result<(), String> {
        let [line, v, page] = of;
        let due = stamps::stamp(self, line, v, page).answer;
        let got = got.map_err(|refused| refused.number()).map(|v| v.0);
        claim(got == due, &format!("{got:?} is answered, not {due:?}"))
    }

    /// FORMAT, over whatever stands in the areas. Accepted, it leaves nothing of that.
    fn format(&mut self, limits: Limits) -> Result<u64, String> {
        match Store::format_in(limits, self.memory.parts_mut()) {
            Err(refused) => return Ok(refused.number()),
            Ok(store) => (self.state, self.windows) = (store.state(), store.windows()),
        }
        let areas = &self.memory;
        claim(self.state == fresh(&limits), "not the state of a new store")?;
        claim(
            areas.pages.part().iter().all(|byte| *byte == 0)
                && areas.nodes.part().iter().all(|number| *number == u32::MAX)
                && areas
                    .register
                    .part()
                    .iter()
                    .all(|r| *r == Record::default()),
            "areas not filled",
        )?;
        Ok(0)
    }
}

/// What a call answers, or a complaint.
pub type Outcome = Result<Result<(), Error>, String>;
/// A store over memory that is lent.
pub type InMemory<'a> = Store<PartsMut<'a>>;

/// WEAVE. Accepted, the node stands at its place, and a leaf's page lies in the page area.
pub fn weave(store: &mut InMemory<'_>, ticket: Ticket) -> Outcome {
    let record_of = |store: &InMemory<'_>, number: u64| {
        let at = number.checked_sub(1)? as usize;
        store.areas().register.get(at).copied()
    };
    let update = record_of(store, ticket.0).map_or(0, |r| r.update);
    let record = record_of(store, update).unwrap_or_default();
    let woven = store.weave(ticket);
    if let Ok(node) = woven {
        let height = stamps::root_height(record.span);
        let place = record.top.saturating_sub(height);
        let place = place.wrapping_add(record.woven) as usize;
        let stored = store.areas().nodes.chunks(2).nth(place);
        claim(
            stored == Some(&[node.left, node.right]),
            "not the node woven",
        )?;
        claim(
            node.span > 1 || u64::from(node.left) < store.state().pages,
            "a leaf of no page",
        )?;
    }
    Ok(woven.map(drop))
}

/// PUBLISH. Accepted, it is held just where the minute is inside what stands in a place, and else says what it moved.
pub fn publish(store: &mut InMemory<'_>, line: Line, minute: Minute) -> Outcome {
    let (windows, before) = (ends(&store.windows()), store.state().line(line));
    let done = store.publish(line, minute);
    let moved = store.state().line(line) != before;
    if let Ok(published) = done {
        let held = published == Published::Held;
        claim(held == inside(&windows, minute.0), "not held just inside")?;
        let due = published.version().map(|version| version.0);
        let next = moved.then_some(before.published + 1);
        claim(due == next, "not the version published")?;
    }
    Ok(done.map(drop))
}

/// READ. Accepted, it gives the bytes that VIEW shows, whatever the areas hold.
pub fn read(store: &InMemory<'_>, range: [u64; 4], buffer: &mut [u8]) -> Outcome {
    let [line, v, offset, len] = range;
    let (line, version) = (Line(line), Version(v));
    let done = store.read_front(line, version, ByteOffset(offset), len, buffer);
    let (size, filled) = (store.state().size, len.min(buffer.len() as u64));
    if done.is_ok() {
        for (at, byte) in (offset..).zip(&buffer[..filled as usize]) {
            let shown = store.view(line, version, PageIndex(at / size));
            let shown = shown.map(|page| page[(at % size) as usize]);
            claim(shown == Ok(*byte), "READ and VIEW differ")?;
        }
    }
    Ok(done)
}

/// VIEW. It gives a page of the page area, and refuses as STAMP does.
pub fn view(store: &InMemory<'_>, line: Line, version: Version, page: PageIndex) -> Outcome {
    let (view, size) = (store.view(line, version, page), store.state().size);
    let stamp = store.stamp(line, version, page);
    claim(view.err() == stamp.err(), "VIEW and STAMP differ")?;
    if let Ok(part) = view {
        let area = store.areas().pages.as_ptr() as usize;
        let begin = (part.as_ptr() as usize).wrapping_sub(area) as u64;
        let number = begin.checked_div(size).unwrap_or(0);
        claim(
            part.len() as u64 == size && begin == number * size && number < store.state().pages,
            "a view of no page of the area",
        )?;
    }
    Ok(view.map(drop))
}
