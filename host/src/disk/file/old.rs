//! Files of forms 1 and 2, of which the rest of a store is derived. Form 1 is from before there were lines: such a store has
//! line 0 alone. Form 2 has the numbers of a line one by one. Records of both have a first node place, and nothing that
//! follows from the rest.

use super::derived::derive;
use crate::calls::counters::{Line, LineVersion, Version};
use crate::calls::ffi::{Entries, LineState, Record, State, LINES};

/// How many numbers of 64 bits a state and a record of form 1 have.
pub const STATE_1: usize = 10;
pub const RECORD_1: usize = 10;
/// The same of form 2.
pub const STATE_2: usize = 9 + 5 * LINES;
pub const RECORD_2: usize = 15;

/// The lines that a state has yet to get.
type Lines = [LineState; LINES];

/// The state whose line 0 has the versions.
#[rustfmt::skip]
pub fn state_of_1(numbers: [u64; STATE_1]) -> (State, Lines) {
    let [size, pages, nodes, updates, tickets, taken, assigned, places, published, blob] = numbers;
    let mut lines = [LineState::default(); LINES];
    lines[0] = LineState { source: 0, start: 0, assigned, published, blob };
    let begun = 1;
    let state = State { size, pages, nodes, updates, tickets, taken, assigned, places, begun, ..State::default() };
    (state, lines)
}

/// The state and its lines.
#[rustfmt::skip]
pub fn state_of_2(numbers: [u64; STATE_2]) -> (State, Lines) {
    let [size, pages, nodes, updates, tickets, taken, assigned, places, begun, rest @ ..] = numbers;
    let mut lines = [LineState::default(); LINES];
    for (line, numbers) in lines.iter_mut().zip(rest.chunks_exact(5)) {
        if let [source, start, assigned, published, blob] = *numbers {
            *line = LineState { source, start, assigned, published, blob };
        }
    }
    let state = State { size, pages, nodes, updates, tickets, taken, assigned, places, begun, ..State::default() };
    (state, lines)
}

/// The record of this number, in a register with so many versions. On the only line the k-th update is version k, and
/// record k's entry for that line says so.
#[rustfmt::skip]
pub fn record_of_1(numbers: [u64; RECORD_1], number_of_record: u64, assigned: u64) -> Record {
    let [n, number, put, update, ticket, f, last, size, place, woven] = numbers;
    let version = if number_of_record <= assigned { number_of_record } else { 0 };
    let name = LineVersion::new(Line(0), Version(version)).0;
    let entries = Entries { from0: version, ..Entries::default() };
    derive(Record { n, number, put, update, ticket, name, f, last, size, woven, entries, ..Record::default() }, place)
}

/// The record.
#[rustfmt::skip]
pub fn record_of_2(numbers: [u64; RECORD_2]) -> Record {
    let [n, number, put, update, ticket, name, f, last, size, place, woven, from0, from4, from8, from12] = numbers;
    let entries = Entries { from0, from4, from8, from12 };
    derive(Record { n, number, put, update, ticket, name, f, last, size, woven, entries, ..Record::default() }, place)
}
