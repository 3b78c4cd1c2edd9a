//! What a store and its areas hold, number by number, as the C header tells it. All of it follows from the model.

use super::{root_span, Store, Update, MOST_LINES};

/// What stands in the areas.
#[derive(Debug, PartialEq)]
pub struct Areas {
    pub pages: Vec<u8>,
    pub nodes: Vec<u32>,
    pub records: Vec<Vec<u64>>,
}

/// A node place before its node is woven.
const NOT_STORED: [u32; 2] = [u32::MAX; 2];

/// Numbers of some bits each in one, the lowest first.
fn packed(bits: u32, numbers: impl DoubleEndedIterator<Item = u64>) -> u64 {
    numbers
        .rev()
        .fold(0, |word, number| (word << bits) | number)
}

impl Store {
    /// The store's numbers, in the order of the fields.
    pub fn numbers(&self) -> Vec<u64> {
        let (tickets, updates) = (self.tickets.len(), self.updates.len());
        let mut numbers = vec![self.page_size, self.pages, self.nodes, self.most_updates];
        numbers.extend([tickets as u64, self.pages - self.page_numbers_unused()]);
        numbers.extend([updates as u64, self.nodes - self.node_places_unused()]);
        numbers.push(self.lines.len() as u64);
        numbers.push(packed(4, self.lines.iter().map(|line| line.source)));
        numbers.extend((0..MOST_LINES).map(|line| self.line_number(line)));
        numbers
    }

    /// A line's four numbers in one; 0 where it has not begun.
    fn line_number(&self, line: u64) -> u64 {
        self.lines.get(line as usize).map_or(0, |of| {
            let (shown, size) = (of.shown.len() as u64, self.last_size(line));
            packed(16, [of.start, shown, of.published, size].into_iter())
        })
    }

    pub fn areas(&self) -> Areas {
        Areas {
            pages: self.page_area(),
            nodes: self.node_area(),
            records: (1..=self.most_updates).map(|k| self.record(k)).collect(),
        }
    }

    fn page_area(&self) -> Vec<u8> {
        let unput = vec![0; self.page_size as usize];
        let slots = self.tickets.iter().flat_map(|ticket| &ticket.slots);
        let mut area: Vec<u8> = slots
            .flat_map(|slot| slot.as_ref().unwrap_or(&unput))
            .copied()
            .collect();
        area.resize((self.page_size * self.pages) as usize, 0);
        area
    }

    fn node_area(&self) -> Vec<u32> {
        let places = self.updates.iter().flat_map(|u| self.nodes_of(u));
        let mut area: Vec<u32> = places.flatten().collect();
        area.resize(2 * self.nodes as usize, u32::MAX);
        area
    }

    /// The places of an update's nodes.
    fn nodes_of(&self, update: &Update) -> Vec<[u32; 2]> {
        let woven = self.woven(update) as usize;
        let names = self.names(update).into_iter().enumerate();
        let node = |(at, (first, span))| {
            let (one, two) = self.numbers_of(update, first, span);
            if at < woven {
                [one as u32, two as u32]
            } else {
                NOT_STORED
            }
        };
        names.map(node).collect()
    }

    /// The k-th record: the k-th ticket's part, the k-th update's, and each line's own version k.
    fn record(&self, k: u64) -> Vec<u64> {
        let at = k as usize - 1;
        let mut record = vec![0; 4 + 10];
        if let Some(ticket) = self.tickets.get(at) {
            let put = ticket.slots.iter().map(|slot| u64::from(slot.is_some()));
            let update = self.updates.iter().position(|u| u.ticket == k);
            let update = update.map_or(0, |place| place as u64 + 1);
            let number = self.page_numbers_before(at);
            record[..4].copy_from_slice(&[ticket.n, number, packed(1, put), update]);
        }
        if let Some(update) = self.updates.get(at) {
            record[4..].copy_from_slice(&self.update_part(at, update));
        }
        let entries: Vec<u64> = (0..MOST_LINES).map(|line| self.entry(line, k)).collect();
        let entries = entries
            .chunks(4)
            .map(|four| packed(16, four.iter().copied()));
        record.extend(entries);
        record
    }

    fn update_part(&self, at: usize, update: &Update) -> [u64; 10] {
        let Update {
            ticket, f, size, ..
        } = *update;
        let before = self.updates[..at].iter();
        let place: u64 = before.map(|u| self.names(u).len() as u64).sum();
        let span = root_span(size);
        let height = u64::from(span.trailing_zeros());
        let past = (0..64).map(|halvings| f >> halvings).sum();
        let count = self.names(update).len() as u64;
        let last = f + self.n(update) - 1;
        let (name, top, woven) = (update.number(), place + height, self.woven(update));
        [ticket, name, f, last, top, past, span, size, count, woven]
    }

    /// The number of the update that is a line's own version `v`; 0 for none.
    fn entry(&self, line: u64, v: u64) -> u64 {
        let of = self.lines.get(line as usize).filter(|of| of.start < v);
        let place = of.and_then(|of| of.shown.get(v as usize - 1));
        place.map_or(0, |place| *place as u64 + 1)
    }
}
