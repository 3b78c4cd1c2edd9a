//! The plain model of the store, document 01's with the lines of document 02, written from the documents alone: tickets,
//! updates, for each line the updates that it shows and the number published, and the site's windows. Refusals follow the
//! table row by row, nodes come from building the tree, and a version is read by applying the updates of its line up to it
//! in turn.

pub mod image;
#[cfg(test)]
mod tests;
pub mod text;
pub mod trees;
pub mod windows;

use windows::{inside, listed, Window, WEEK};

/// A blob has at most this many pages.
const MOST_PAGES: u64 = 4_096;
/// An update has at most this many pages.
const MOST_UPDATE: u64 = 64;
/// A store has at most this many lines.
pub const MOST_LINES: u64 = 16;

/// The number of the row that refuses a step.
#[derive(Debug, PartialEq)]
pub struct Refused(pub u64);

pub type Answer<T> = Result<T, Refused>;

/// Refuses by a row of the table where its condition holds.
fn row(number: u64, condition: bool) -> Answer<()> {
    if condition {
        Err(Refused(number))
    } else {
        Ok(())
    }
}

/// What BEGIN gave: `n` slots for pages, and how many nodes are woven.
pub struct Ticket {
    pub n: u64,
    pub slots: Vec<Option<Vec<u8>>>,
    pub woven: u64,
}

/// What ASSIGN gave: a ticket's update, of the pages from `f` on, and the blob's size in pages after it; and the line and
/// version that it is.
pub struct Update {
    pub ticket: u64,
    pub f: u64,
    pub size: u64,
    line: u64,
    version: u64,
}

impl Update {
    /// Its version's number in the node area.
    fn number(&self) -> u64 {
        self.line * 65_536 + self.version
    }
}

/// A line: the line and version that it begins from, the updates that are its versions 1, 2 .., the shared ones first, by
/// their places among all; and how many are published.
pub struct Line {
    source: u64,
    pub start: u64,
    pub shown: Vec<usize>,
    pub published: u64,
}

/// What PUBLISH answers.
#[derive(Debug, PartialEq)]
pub enum Published {
    Now(u64),
    Waiting,
    Held,
}

/// A woven node: its name, its two numbers and how many nodes of its version are left. Versions say their line too.
#[derive(Debug, PartialEq)]
pub struct Node {
    pub version: u64,
    pub first: u64,
    pub span: u64,
    pub numbers: (u64, u64),
    pub left: u64,
}

pub struct Store {
    pub page_size: u64,
    pub pages: u64,
    nodes: u64,
    most_updates: u64,
    pub tickets: Vec<Ticket>,
    /// In the order of ASSIGN, over all lines.
    pub updates: Vec<Update>,
    pub lines: Vec<Line>,
    pub windows: Vec<Window>,
}

/// Whether the `span` pages from `first` on and the `n` pages from `f` on have a page in common.
fn meet(first: u64, span: u64, f: u64, n: u64) -> bool {
    first < f + n && f < first + span
}

/// The smallest power of two not below `size`.
pub fn root_span(size: u64) -> u64 {
    let mut span = 1;
    while span < size {
        span *= 2;
    }
    span
}

/// The first page and span of each node that an update makes at and below one node, in weaving order.
pub fn weaving_order(first: u64, span: u64, f: u64, n: u64) -> Vec<(u64, u64)> {
    if !meet(first, span, f, n) {
        return vec![];
    }
    let mut names = vec![(first, span)];
    if span > 1 {
        let half = span / 2;
        names.extend(weaving_order(first, half, f, n));
        names.extend(weaving_order(first + half, half, f, n));
    }
    names
}

impl Store {
    pub fn format(page_size: u64, pages: u64, nodes: u64, updates: u64) -> Answer<Store> {
        row(
            1,
            !page_size.is_power_of_two() || !(16..=4_096).contains(&page_size),
        )?;
        row(
            2,
            !(1..=65_535).contains(&pages)
                || !(1..=131_072).contains(&nodes)
                || !(1..=4_096).contains(&updates),
        )?;
        Ok(Store {
            page_size,
            pages,
            nodes,
            most_updates: updates,
            tickets: vec![],
            updates: vec![],
            lines: vec![Line {
                source: 0,
                start: 0,
                shown: vec![],
                published: 0,
            }],
            windows: vec![],
        })
    }

    pub fn begin(&mut self, n: u64) -> Answer<u64> {
        row(4, n == 0 || n > MOST_UPDATE)?;
        row(5, self.tickets.len() as u64 == self.most_updates)?;
        row(6, self.page_numbers_unused() < n)?;
        self.tickets.push(Ticket {
            n,
            slots: vec![None; n as usize],
            woven: 0,
        });
        Ok(self.tickets.len() as u64)
    }

    pub fn put(&mut self, ticket: u64, i: u64, bytes: &[u8]) -> Answer<()> {
        let at = self.place_of(ticket)?;
        row(8, self.update_of(ticket).is_some())?;
        row(9, i >= self.tickets[at].n)?;
        row(10, self.tickets[at].slots[i as usize].is_some())?;
        row(11, bytes.len() as u64 != self.page_size)?;
        self.tickets[at].slots[i as usize] = Some(bytes.to_vec());
        Ok(())
    }

    /// A write at page `f`, or an append where there is none. Gives the line's version and its node count.
    pub fn assign(&mut self, line: u64, ticket: u64, f: Option<u64>) -> Answer<(u64, u64)> {
        let at = self.place_of(ticket)?;
        row(8, self.update_of(ticket).is_some())?;
        let shown = self.line(line)?.shown.len() as u64;
        row(12, self.tickets[at].slots.contains(&None))?;
        let (n, size) = (self.tickets[at].n, self.size_in_pages(line, shown));
        let f = f.unwrap_or(size);
        row(13, f > size)?;
        row(14, f + n > MOST_PAGES)?;
        let update = Update {
            ticket,
            f,
            size: size.max(f + n),
            line,
            version: shown + 1,
        };
        let count = self.names(&update).len() as u64;
        row(15, self.node_places_unused() < count)?;
        let place = self.updates.len();
        self.lines[line as usize].shown.push(place);
        self.updates.push(update);
        Ok((shown + 1, count))
    }

    pub fn weave(&mut self, ticket: u64) -> Answer<Node> {
        let at = self.place_of(ticket)?;
        let update = self.update_of(ticket).ok_or(Refused(8))?;
        let names = self.names(update);
        let woven = self.tickets[at].woven;
        row(8, woven == names.len() as u64)?;
        let (first, span) = names[woven as usize];
        let node = Node {
            version: update.number(),
            first,
            span,
            numbers: self.numbers_of(update, first, span),
            left: names.len() as u64 - woven - 1,
        };
        self.tickets[at].woven += 1;
        Ok(node)
    }

    /// The version published now, if there is one to publish and the minute is inside no window.
    pub fn publish(&mut self, line: u64, minute: u64) -> Answer<Published> {
        let next = self.line(line)?.published + 1;
        row(22, minute >= WEEK)?;
        if inside(&self.windows, minute) {
            return Ok(Published::Held);
        }
        if self.shown(line, next).map_or(true, |u| !self.complete(u)) {
            return Ok(Published::Waiting);
        }
        self.lines[line as usize].published = next;
        Ok(Published::Now(next))
    }

    /// The windows of a text, in place of those that there were.
    pub fn set_windows(&mut self, text: &[u8]) -> Answer<()> {
        self.windows = listed(text).map_err(Refused)?;
        Ok(())
    }

    /// The new line: it shows what the line shows up to `v`, all of it published.
    pub fn branch(&mut self, line: u64, v: u64) -> Answer<u64> {
        let source = self.published(line, v)?;
        row(21, self.lines.len() as u64 == MOST_LINES)?;
        let shown = source.shown[..v as usize].to_vec();
        self.lines.push(Line {
            source: line,
            start: v,
            shown,
            published: v,
        });
        Ok(self.lines.len() as u64 - 1)
    }

    pub fn read(
        &self,
        line: u64,
        v: u64,
        offset: u64,
        length: u64,
        buffer: &mut [u8],
    ) -> Answer<()> {
        let size = self.size(line, v)?;
        row(17, offset > size || length > size - offset)?;
        row(18, (buffer.len() as u64) < length)?;
        let (offset, length) = (offset as usize, length as usize);
        buffer[..length].copy_from_slice(&self.blob(line, v)[offset..offset + length]);
        Ok(())
    }

    pub fn size(&self, line: u64, v: u64) -> Answer<u64> {
        self.published(line, v)?;
        Ok(self.page_size * self.size_in_pages(line, v))
    }

    pub fn recent(&self, line: u64) -> Answer<u64> {
        Ok(self.line(line)?.published)
    }

    /// The lowest version of the line such that the page is in it and has the same bytes in every version from there to `v`.
    pub fn stamp(&self, line: u64, v: u64, page: u64) -> Answer<u64> {
        self.published(line, v)?;
        row(17, page >= self.size_in_pages(line, v))?;
        let in_each = self.page_in_each(line, v, page);
        let same_from = |w: &u64| {
            let mut later = in_each[*w as usize..].iter();
            later.all(|bytes| bytes.is_some() && *bytes == in_each[v as usize])
        };
        Ok((1..=v).find(same_from).expect("at the latest v itself"))
    }

    /// The newest version of a line up to `v` whose update covers the page.
    pub fn covering(&self, line: u64, v: u64, page: u64) -> u64 {
        let newest = self.newest_meeting(line, v, page, 1);
        newest.map_or(0, |update| update.version)
    }

    /// A page's bytes in a version of a line, published or not; none where the version has no such page.
    pub fn page(&self, line: u64, v: u64, page: u64) -> Option<&[u8]> {
        *self.page_in_each(line, v, page).last()?
    }

    /// The same in each version from 0 to `v`: the updates applied in turn, to this page alone.
    fn page_in_each(&self, line: u64, v: u64, page: u64) -> Vec<Option<&[u8]>> {
        let (mut in_each, mut bytes) = (vec![None], None);
        for update in (1..=v).filter_map(|w| self.shown(line, w)) {
            let slots = &self.tickets[update.ticket as usize - 1].slots;
            let put = page.checked_sub(update.f);
            let put = put.and_then(|i| slots.get(i as usize));
            bytes = put.map_or(bytes, |slot| slot.as_deref());
            in_each.push(bytes);
        }
        in_each
    }

    /// Where the ticket stands among the tickets.
    fn place_of(&self, ticket: u64) -> Answer<usize> {
        row(7, ticket == 0 || ticket > self.tickets.len() as u64)?;
        Ok(ticket as usize - 1)
    }

    fn line(&self, line: u64) -> Answer<&Line> {
        row(20, line >= self.lines.len() as u64)?;
        Ok(&self.lines[line as usize])
    }

    /// A line on which version `v` is published.
    fn published(&self, line: u64, v: u64) -> Answer<&Line> {
        let of = self.line(line)?;
        row(16, v > of.published)?;
        Ok(of)
    }

    /// The update that a line shows as version `v`.
    fn shown(&self, line: u64, v: u64) -> Option<&Update> {
        let shown = &self.lines[line as usize].shown;
        let place = shown.get((v as usize).checked_sub(1)?)?;
        Some(&self.updates[*place])
    }

    /// The update that ASSIGN made of the ticket.
    pub fn update_of(&self, ticket: u64) -> Option<&Update> {
        self.updates.iter().find(|update| update.ticket == ticket)
    }

    fn n(&self, update: &Update) -> u64 {
        self.tickets[update.ticket as usize - 1].n
    }

    fn woven(&self, update: &Update) -> u64 {
        self.tickets[update.ticket as usize - 1].woven
    }

    fn complete(&self, update: &Update) -> bool {
        self.nodes_left(update) == 0
    }

    pub fn size_in_pages(&self, line: u64, v: u64) -> u64 {
        self.shown(line, v).map_or(0, |update| update.size)
    }

    /// The size in pages of a line's last assigned version.
    pub fn last_size(&self, line: u64) -> u64 {
        self.size_in_pages(line, self.lines[line as usize].shown.len() as u64)
    }

    /// How many page numbers the tickets before this place took.
    fn page_numbers_before(&self, place: usize) -> u64 {
        self.tickets[..place].iter().map(|t| t.n).sum()
    }

    pub fn page_numbers_unused(&self) -> u64 {
        self.pages - self.page_numbers_before(self.tickets.len())
    }

    fn node_places_unused(&self) -> u64 {
        let used = self.updates.iter().map(|u| self.names(u).len() as u64);
        self.nodes - used.sum::<u64>()
    }

    /// The nodes that an update makes, in weaving order.
    fn names(&self, update: &Update) -> Vec<(u64, u64)> {
        weaving_order(0, root_span(update.size), update.f, self.n(update))
    }

    /// How many nodes of an update are still to be woven.
    pub fn nodes_left(&self, update: &Update) -> u64 {
        self.names(update).len() as u64 - self.woven(update)
    }

    /// A node's two numbers: its children's versions, each of the line on which it got its version, or a leaf's page
    /// number and 0. Below it are the versions of the line on which its own update got one.
    fn numbers_of(&self, update: &Update, first: u64, span: u64) -> (u64, u64) {
        let half = span / 2;
        if span > 1 {
            let newest = |first| {
                let newest = self.newest_meeting(update.line, update.version, first, half);
                newest.map_or(0, Update::number)
            };
            (newest(first), newest(first + half))
        } else {
            let base = self.page_numbers_before(update.ticket as usize - 1);
            (base + first - update.f, 0)
        }
    }

    /// Of a line's versions up to `v` the newest whose update meets the range.
    fn newest_meeting(&self, line: u64, v: u64, first: u64, span: u64) -> Option<&Update> {
        let versions = (1..=v).rev().filter_map(|w| self.shown(line, w));
        let mut meeting = versions.filter(|u| meet(first, span, u.f, self.n(u)));
        meeting.next()
    }

    /// The bytes of version `v` of a line: its updates 1 to `v` applied in turn to an empty blob.
    fn blob(&self, line: u64, v: u64) -> Vec<u8> {
        let (s, mut blob) = (self.page_size as usize, vec![]);
        for update in (1..=v).filter_map(|w| self.shown(line, w)) {
            blob.resize(s * update.size as usize, 0);
            let slots = &self.tickets[update.ticket as usize - 1].slots;
            for (i, slot) in slots.iter().enumerate() {
                let at = s * (update.f as usize + i);
                let bytes = slot.as_ref().expect("ASSIGN comes after every PUT");
                blob[at..at + s].copy_from_slice(bytes);
            }
        }
        blob
    }
}
