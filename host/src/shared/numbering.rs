//! How the numbers that callers use stand to the store's own. They are equal until a store is rebuilt into another one:
//! that counts its tickets and versions anew, and its callers go on with theirs. So a version that a caller has noted down never
//! means another one: it reads as it always did, or, where it was not kept, is refused.

use crate::calls::counters::{Line, Ticket, Version};
use crate::calls::ffi::State;
use crate::shared::room::Mix;

/// The numbers of a store's callers. The default: the store's own.
#[derive(Clone, Debug, Default, PartialEq, Eq)]
pub struct Numbering {
    /// None where the store was never rebuilt.
    rebuilt: Option<Box<Rebuilt>>,
}

#[derive(Clone, Debug, Default, PartialEq, Eq)]
struct Rebuilt {
    tickets: Numbers,
    /// A line each; of lines that have begun since, those that were asked for.
    lines: Vec<Numbers>,
    /// What callers' updates had taken before; and what the store's had when it was rebuilt.
    before: Mix,
    made: Mix,
}

/// Numbers of one sort: some that stand for others one by one, and all after these by a shift.
#[derive(Clone, Debug, Default, PartialEq, Eq)]
pub struct Numbers {
    /// A caller's number and the store's own, both ascending.
    kept: Vec<(u64, u64)>,
    /// The last of the store's own numbers that is not shifted, and what is added to those after it.
    last: u64,
    shift: u64,
}

/// Callers' numbers are below this, so that no sum of them wraps.
const END: u64 = 1 << 62;

impl Numbers {
    /// These one by one, from 1 on, and after the store's own number `last` all in a row: the next is the caller's `callers` + 1. None
    /// where they are in no order, or where the store's own would be above the caller's from there on.
    pub fn new(kept: Vec<(u64, u64)>, last: u64, callers: u64) -> Option<Numbers> {
        let shift = callers.checked_sub(last).filter(|_| callers < END)?;
        let ascend = |pair: &[(u64, u64)]| pair[0].0 < pair[1].0 && pair[0].1 < pair[1].1;
        let begins = kept.first().map_or(true, |k| k.0 > 0 && k.1 > 0);
        let within = kept.last().map_or(true, |k| k.0 <= callers && k.1 <= last);
        let right = begins && within && kept.windows(2).all(ascend);
        right.then_some(Numbers { kept, last, shift })
    }

    /// The store's own number for a caller's.
    fn own(&self, callers: u64) -> Option<u64> {
        match callers.checked_sub(self.shift) {
            Some(own) if own > self.last => Some(own),
            _ => {
                let at = self.kept.binary_search_by_key(&callers, |k| k.0).ok()?;
                Some(self.kept[at].1)
            }
        }
    }

    /// The caller's number for the store's own.
    fn callers(&self, own: u64) -> Option<u64> {
        if own > self.last {
            return own.checked_add(self.shift);
        }
        let at = self.kept.binary_search_by_key(&own, |k| k.1).ok()?;
        Some(self.kept[at].0)
    }

    /// The numbers of a line that begins from the store's own version `start` of the line with these.
    fn branched(&self, start: u64) -> Numbers {
        let mut branched = self.clone();
        if start <= self.last {
            branched.kept.retain(|k| k.1 <= start);
            branched.last = start;
            branched.shift = self.callers(start).unwrap_or(start).saturating_sub(start);
        }
        branched
    }
}

impl Numbering {
    /// Those of a store that was just rebuilt, into this state: of its tickets, and of each of its lines' versions; and what callers'
    /// updates had taken.
    pub fn rebuilt(tickets: Numbers, lines: Vec<Numbers>, before: Mix, state: &State) -> Numbering {
        let rebuilt = Rebuilt {
            tickets,
            lines,
            before,
            made: Mix::of(state),
        };
        Numbering {
            rebuilt: Some(Box::new(rebuilt)),
        }
    }

    /// What callers' updates took together, in a store with this state.
    pub fn mix(&self, state: &State) -> Mix {
        let all = Mix::of(state);
        match &self.rebuilt {
            None => all,
            Some(rebuilt) => all.without(rebuilt.made).and(rebuilt.before),
        }
    }

    /// Also for the lines that have begun since.
    pub fn complete(&mut self, state: &State) {
        if let Some(rebuilt) = &mut self.rebuilt {
            for at in rebuilt.lines.len() as u64..state.begun.min(16) {
                let line = state.line(Line(at));
                let source = rebuilt.lines.get(line.source as usize);
                let branched = source.map_or_else(Numbers::default, |s| s.branched(line.start));
                rebuilt.lines.push(branched);
            }
        }
    }

    /// The store's own number of a ticket. Of one that was not kept, 0: no ticket has that.
    #[inline]
    pub fn own_ticket(&self, ticket: Ticket) -> u64 {
        match &self.rebuilt {
            None => ticket.0,
            Some(rebuilt) => rebuilt.tickets.own(ticket.0).unwrap_or(0),
        }
    }

    /// The caller's number of a ticket. One that no caller has is 0.
    #[inline]
    pub fn ticket(&self, own: u64) -> Ticket {
        match &self.rebuilt {
            None => Ticket(own),
            Some(rebuilt) => Ticket(rebuilt.tickets.callers(own).unwrap_or(0)),
        }
    }

    /// The caller's number of the last ticket given, where the store has given so many.
    pub fn last_ticket(&self, own: u64) -> u64 {
        let rebuilt = self.rebuilt.as_ref();
        own + rebuilt.map_or(0, |rebuilt| rebuilt.tickets.shift)
    }

    /// The store's own number of a line's version. Of one that was not kept, one that no line reaches.
    #[inline]
    pub fn own_version(&self, line: Line, version: Version) -> u64 {
        match self.of_line(line) {
            Some(numbers) if version.0 > 0 => numbers.own(version.0).unwrap_or(u64::MAX),
            _ => version.0,
        }
    }

    /// The caller's number of a line's version; that of one that was not kept is of no use.
    #[inline]
    pub fn version(&self, line: Line, own: u64) -> Version {
        match self.of_line(line) {
            Some(numbers) if own > 0 => Version(numbers.callers(own).unwrap_or(own)),
            _ => Version(own),
        }
    }

    /// The caller's number of a line's version; none where it was not kept.
    pub fn kept_version(&self, line: Line, own: u64) -> Option<Version> {
        match self.of_line(line) {
            Some(numbers) => numbers.callers(own).map(Version),
            None => Some(Version(own)),
        }
    }

    /// The caller's number for a stamp of a page in a version. Of a page that has not changed since the store was rebuilt,
    /// the last version kept: what there was between those that were kept, nobody knows any more.
    pub fn stamp(&self, line: Line, version: Version, own: u64) -> Version {
        match self.of_line(line) {
            Some(numbers) if own <= numbers.last => {
                let later = numbers.kept.partition_point(|k| k.0 <= version.0);
                let kept = later.checked_sub(1).map(|at| numbers.kept[at].0);
                Version(kept.unwrap_or(version.0))
            }
            _ => self.version(line, own),
        }
    }

    /// What is added to the store's own number of a line's version, where that is above the line's last rebuilt one.
    pub fn shift(&self, line: Line) -> u64 {
        self.of_line(line).map_or(0, |numbers| numbers.shift)
    }

    fn of_line(&self, line: Line) -> Option<&Numbers> {
        let lines = &self.rebuilt.as_ref()?.lines;
        usize::try_from(line.0).ok().and_then(|at| lines.get(at))
    }

    /// As numbers of 64 bits, lowest byte first; nothing where the store was never rebuilt: how many lines; of each, and then of the
    /// tickets, the last number that is not shifted, the shift, how many stand one by one, and these, a caller's and the store's own; then
    /// what updates took, before and when it was rebuilt.
    pub fn to_bytes(&self) -> Vec<u8> {
        let mut words = Vec::new();
        if let Some(rebuilt) = &self.rebuilt {
            words.push(rebuilt.lines.len() as u64);
            for numbers in rebuilt.lines.iter().chain([&rebuilt.tickets]) {
                words.extend([numbers.last, numbers.shift, numbers.kept.len() as u64]);
                words.extend(numbers.kept.iter().flat_map(|k| [k.0, k.1]));
            }
            words.extend([rebuilt.before, rebuilt.made].map(Mix::words).concat());
        }
        words.iter().flat_map(|word| word.to_le_bytes()).collect()
    }

    /// Those that [`to_bytes`](Numbering::to_bytes) wrote, of a store that has come to this state since, or had then; none of other
    /// bytes.
    pub fn from_bytes(bytes: &[u8], state: &State) -> Option<Numbering> {
        if bytes.is_empty() {
            return Some(Numbering::default());
        }
        if bytes.len() % 8 != 0 {
            return None;
        }
        let mut words = bytes.chunks_exact(8).map(|eight| {
            let mut word = [0; 8];
            word.copy_from_slice(eight);
            u64::from_le_bytes(word)
        });
        let count = words.next().filter(|count| *count <= 16)?;
        let mut lines = Vec::new();
        for _ in 0..count {
            lines.push(Numbers::read(&mut words)?);
        }
        let tickets = Numbers::read(&mut words)?;
        let mut mix = || {
            Some(Mix::from_words([
                words.next()?,
                words.next()?,
                words.next()?,
                words.next()?,
            ]))
        };
        let (before, made) = (mix()?, mix()?);
        let begun = (0..).map(Line).zip(&lines);
        let is_published = |(line, of): (Line, &Numbers)| of.last <= state.line(line).published;
        let belongs = count <= state.begun && tickets.last <= state.tickets;
        let right = belongs && begun.into_iter().all(is_published);
        let rebuilt = Rebuilt {
            tickets,
            lines,
            before,
            made,
        };
        (right && words.next().is_none()).then(|| Numbering {
            rebuilt: Some(Box::new(rebuilt)),
        })
    }
}

impl Numbers {
    fn read(words: &mut impl Iterator<Item = u64>) -> Option<Numbers> {
        let (last, shift, count) = (words.next()?, words.next()?, words.next()?);
        let mut kept = Vec::new();
        for _ in 0..count {
            kept.push((words.next()?, words.next()?)); // no more than there are words
        }
        Numbers::new(kept, last, last.checked_add(shift)?)
    }
}

#[cfg(test)]
mod tests {
    use super::*;

    /// A state with so many tickets, in which each line has published so much.
    fn state(tickets: u64, published: &[u64]) -> State {
        let mut state = State {
            tickets,
            begun: published.len() as u64,
            ..State::default()
        };
        for (at, published) in (0..).zip(published) {
            let mut line = state.line(Line(at));
            line.published = *published;
            state.set_line(Line(at), line);
        }
        state
    }

    /// Versions 2, 5 and 9 were kept as 1, 3 and 4, and the next is 10, the store's own 5; an open ticket 7 is 6, and the next
    /// is 12, the store's own 7.
    fn rebuilt() -> Numbering {
        let versions = Numbers::new(vec![(2, 1), (5, 3), (9, 4)], 4, 9).unwrap();
        let tickets = Numbers::new(vec![(7, 6)], 6, 11).unwrap();
        let before = Mix::from_words([11, 30, 10, 70]);
        Numbering::rebuilt(tickets, vec![versions], before, &state(6, &[4]))
    }

    #[test]
    fn callers_numbers_and_the_stores_own_are_inverse() {
        let numbers = rebuilt();
        let pairs = [(0, 0), (2, 1), (5, 3), (9, 4), (10, 5), (11, 6), (99, 94)];
        for (callers, own) in pairs {
            assert_eq!(numbers.own_version(Line(0), Version(callers)), own);
            assert_eq!(numbers.version(Line(0), own), Version(callers));
        }
        for gone in [1, 3, 4, 6, 7, 8] {
            assert_eq!(numbers.own_version(Line(0), Version(gone)), u64::MAX);
        }
        for (callers, own) in [(7, 6), (12, 7), (13, 8)] {
            assert_eq!(numbers.own_ticket(Ticket(callers)), own);
            assert_eq!(numbers.ticket(own), Ticket(callers));
        }
        for gone in [0, 1, 6, 8, 11] {
            assert_eq!(numbers.own_ticket(Ticket(gone)), 0);
        }
        assert_eq!((numbers.last_ticket(6), numbers.last_ticket(8)), (11, 13));
        let equal = Numbering::default();
        for number in [0, 1, u64::MAX] {
            assert_eq!(equal.own_version(Line(3), Version(number)), number);
            assert_eq!(equal.version(Line(3), number), Version(number));
            assert_eq!(equal.own_ticket(Ticket(number)), number);
            assert_eq!(equal.ticket(number), Ticket(number));
        }
    }

    #[test]
    fn a_stamp_is_never_too_low() {
        let numbers = rebuilt();
        // a version, the store's own stamp in it, and the stamp
        for (version, own, stamp) in [(2, 1, 2), (5, 1, 5), (9, 2, 9), (12, 4, 9), (12, 6, 11)] {
            let told = numbers.stamp(Line(0), Version(version), own);
            assert_eq!(told, Version(stamp));
        }
    }

    /// Lines that begin from a version that was kept, from a later one, and from none.
    #[test]
    fn a_line_that_begins_has_what_it_begins_from() {
        let mut numbers = rebuilt();
        let mut state = state(9, &[7, 3, 6, 0]);
        for (line, start) in [(1, 3), (2, 6), (3, 0)] {
            let mut of = state.line(Line(line));
            of.start = start;
            state.set_line(Line(line), of);
        }
        numbers.complete(&state);
        let lines = [
            (1, &[(2, 1), (5, 3), (6, 4), (9, 7)][..]),
            (2, &[(2, 1), (5, 3), (9, 4), (10, 5), (12, 7)]),
            (3, &[(1, 1), (9, 9)]),
        ];
        for (line, pairs) in lines {
            for (callers, own) in pairs.iter().copied() {
                assert_eq!(numbers.own_version(Line(line), Version(callers)), own);
                assert_eq!(numbers.version(Line(line), own), Version(callers));
            }
        }
        assert_eq!(numbers.own_version(Line(1), Version(4)), u64::MAX);
    }

    #[test]
    fn numbers_come_back_from_their_bytes() {
        let (numbers, state) = (rebuilt(), state(6, &[4]));
        let bytes = numbers.to_bytes();
        assert_eq!(Numbering::from_bytes(&bytes, &state), Some(numbers));
        let none = Numbering::default();
        assert_eq!(none.to_bytes(), []);
        assert_eq!(Numbering::from_bytes(&[], &state), Some(none));
    }

    /// Those of another store: with fewer lines, or versions, or tickets.
    #[test]
    fn numbers_of_another_store_are_refused() {
        let bytes = rebuilt().to_bytes();
        for state in [state(6, &[]), state(6, &[3]), state(5, &[4])] {
            assert_eq!(Numbering::from_bytes(&bytes, &state), None);
        }
        let later = state(9, &[7, 3]);
        assert!(Numbering::from_bytes(&bytes, &later).is_some());
    }

    /// Any bytes are refused, or are numbers that can be asked for anything.
    #[test]
    fn damaged_bytes_do_no_harm() {
        let (whole, state) = (rebuilt().to_bytes(), state(6, &[4]));
        for length in 0..whole.len() {
            let cut = Numbering::from_bytes(&whole[..length], &state);
            assert!(cut.is_none() || length == 0);
        }
        assert_eq!(
            Numbering::from_bytes(&[&whole[..], &[0; 8]].concat(), &state),
            None
        );
        let numbers = [
            0,
            1,
            2,
            3,
            16,
            17,
            1 << 32,
            END - 1,
            END,
            u64::MAX - 1,
            u64::MAX,
        ];
        for (at, number) in (0..whole.len() / 8).flat_map(|at| numbers.map(|n| (at, n))) {
            let mut bytes = whole.clone();
            bytes[8 * at..][..8].copy_from_slice(&number.to_le_bytes());
            if let Some(numbers) = Numbering::from_bytes(&bytes, &state) {
                ask(numbers, &state);
            }
        }
    }

    /// Asks for numbers of all sizes, on lines that have begun and others.
    fn ask(mut numbers: Numbering, state: &State) {
        let mut later = *state;
        (later.begun, later.sources) = (3, 0x100);
        later.lines[1] = 2;
        numbers.complete(&later);
        for number in [0, 1, 2, 3, 4, 5, 9, 10, END, u64::MAX] {
            for line in [0, 1, 2, 3, 16, u64::MAX].map(Line) {
                let version = numbers.version(line, number);
                numbers.own_version(line, Version(number));
                numbers.stamp(line, version, number);
                numbers.shift(line);
            }
            numbers.own_ticket(Ticket(number));
            numbers.ticket(number);
        }
    }
}
