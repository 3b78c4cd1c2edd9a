//! What a record holds only so that no call works it out again: it follows from the rest of the register.

use crate::calls::ffi::{node_count, root_span, Record, State};

/// The height of a tree whose root has this span. The span is a power of two, or 0 for a size that no tree has: that one's height is 0.
pub fn height_of(span: u64) -> u64 {
    span.max(1).trailing_zeros().into()
}

/// A record with what follows from the rest of it and its first node place. Without an update that is zeros.
pub fn derive(mut record: Record, place: u64) -> Record {
    // any numbers may stand in a file: what would wrap is none of a store's, and the count is then 0
    let (f, size) = (record.f, record.size);
    let derived = if record.name == 0 {
        [0; 4]
    } else {
        let span = root_span(size);
        let pages = record.last.wrapping_sub(f).wrapping_add(1);
        [
            place.wrapping_add(height_of(span)),
            f.wrapping_mul(2).wrapping_sub(f.count_ones().into()),
            span,
            node_count(f, pages, size),
        ]
    };
    [record.top, record.past, record.span, record.count] = derived;
    record
}

/// Whether a register's records have what follows from the rest of it, just the first ones an update. Each update's nodes
/// lie behind those of the one before it, up to the places that the state says are taken.
pub fn agrees(register: &[Record], s: &State) -> bool {
    let mut place = 0;
    for (number, record) in (1..).zip(register) {
        let is_update = number <= s.assigned;
        let right = (record.name != 0) == is_update && *record == derive(*record, place);
        if !right || is_update && (record.count == 0 || record.woven > record.count) {
            return false;
        }
        place += record.count;
    }
    place == s.places
}
