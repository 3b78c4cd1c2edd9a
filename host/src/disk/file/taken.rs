//! What a save writes of a store: what is taken, and nothing of the room that is left.

use super::form::{write_nodes, write_register, Header, CHECKSUM_AT};
use super::new::NewFile;
use super::summed::Summed;
use super::{at, FileError, SavePlace};
use crate::calls::counters::{Line, Version};
use crate::calls::ffi::{Record, State, Windows};
use std::fs::File;
use std::io::{BufWriter, Write};
use std::os::unix::fs::FileExt;
use std::path::Path;

/// How many bytes are handed to the system at a time: 64 of the largest pages.
const AT_A_TIME: usize = 64 * 4_096;

/// What a save writes of a store, taken at one moment.
pub struct Taken<'a> {
    pub state: State,
    pub windows: Windows,
    /// The bytes of a page number that is taken; zeros where it is not put.
    pub page: &'a dyn Fn(u64) -> &'a [u8],
    /// The node places taken, two numbers each.
    pub nodes: &'a [u32],
    /// The records used.
    pub register: &'a [Record],
    /// What follows the areas.
    pub last_part: &'a [u8],
}

impl Taken<'_> {
    /// Saves it, as [`Store::save`](crate::Store::save) says.
    pub fn save(&self, place: &SavePlace) -> Result<Version, FileError> {
        let (header, path) = (self.check()?, &place.path);
        let new = NewFile::at(place).map_err(at(path))?;
        let checksum = self.write(&header, &new.file, path)?.to_le_bytes();
        let written = new.file.write_all_at(&checksum, CHECKSUM_AT as u64);
        written.and_then(|()| new.replace()).map_err(at(path))?;
        Ok(Version(self.state.line(Line(0)).published))
    }

    /// The header, where it is a store that a run of calls can leave, as far as that can be told without its pages and nodes.
    pub(crate) fn check(&self) -> Result<Header, FileError> {
        let header = Header::of(self);
        header.check_lengths()?;
        header.check_counters()?;
        header.check_windows()?;
        header.check_records(self.register)?;
        Ok(header)
    }

    /// Writes it to an empty file that is to be at this path, and gives the checksum: its place in the header is left, since all else
    /// comes first.
    fn write(&self, header: &Header, file: &File, path: &Path) -> Result<u64, FileError> {
        let mut out = Summed::new(BufWriter::with_capacity(AT_A_TIME, file), path);
        out.write(&header.to_bytes())?;
        out.write_beside(&[0; 8])?;
        self.write_pages(&mut out)?;
        write_nodes(self.nodes, &mut out)?;
        write_register(self.register, &mut out)?;
        out.write(self.last_part)?;
        out.flush()?;
        Ok(out.sum.value())
    }

    fn write_pages(&self, out: &mut Summed<'_, impl Write>) -> Result<(), FileError> {
        for number in 0..self.state.taken {
            let bytes = (self.page)(number);
            if bytes.len() as u64 != self.state.size {
                return Err(FileError::AreaLengths);
            }
            out.write(bytes)?;
        }
        Ok(())
    }
}

/// The records of the tickets given, or of as many as there are.
fn of_tickets<'a>(register: &'a [Record], state: &State) -> impl Iterator<Item = &'a Record> {
    (0..state.tickets).zip(register).map(|(_, record)| record)
}

/// The page numbers that are put, by the records of the tickets given. Any records will do: a number that the page area has
/// no room for is none.
pub fn put_pages<'a>(register: &'a [Record], state: &State) -> impl Iterator<Item = u64> + 'a {
    let (records, pages) = (of_tickets(register, state), state.pages);
    let put = |record: &'a Record| {
        let put = (0..record.n.min(64)).filter(move |i| record.is_put(*i));
        put.filter_map(move |i| record.page_number(i))
    };
    records.flat_map(put).filter(move |number| *number < pages)
}

/// Whether the tickets' pages follow each other up to those that are taken, and an update's are all put. Then no version has a
/// page that is not put, and nothing that a call reads is left out of a file.
pub fn pages_agree(register: &[Record], state: &State) -> bool {
    let mut taken = 0;
    for record in of_tickets(register, state) {
        let all = match record.n {
            1..=64 => u64::MAX >> (64 - record.n),
            _ => return false,
        };
        let is_right = match record.update {
            0 => record.put & !all == 0,
            _ => record.put == all,
        };
        if !is_right || record.number != taken {
            return false;
        }
        taken += record.n;
    }
    taken == state.taken
}

#[cfg(test)]
mod tests {
    use super::super::new::tests::Folder;
    use super::super::{front, load};
    use super::*;
    use crate::calls::areas::Limits;
    use crate::calls::store::Store;

    /// A store with an update that is half woven, and an open ticket with the second of its three pages put.
    fn in_work() -> Store {
        let mut store = Store::format(Limits::new(16, 8, 16, 4)).unwrap();
        let ticket = store.begin(2).unwrap();
        (0..2).for_each(|i| store.put(ticket, i, &[1 + i as u8; 16]).unwrap());
        store.append(Line(0), ticket).unwrap();
        store.weave(ticket).unwrap();
        let open = store.begin(3).unwrap();
        store.put(open, 1, &[3; 16]).unwrap();
        store
    }

    /// Saves a store with this numbering, after a change of what is taken of it.
    fn save(
        store: &Store,
        last_part: &[u8],
        path: &Path,
        change: impl FnOnce(&mut Taken<'_>),
    ) -> Result<Version, FileError> {
        let (state, areas) = (store.state(), store.areas());
        let page = |number: u64| &areas.pages()[16 * number as usize..][..16];
        let mut taken = Taken {
            state,
            windows: store.windows(),
            page: &page,
            nodes: front(areas.nodes(), 2 * state.places),
            register: front(areas.register(), state.tickets),
            last_part,
        };
        change(&mut taken);
        taken.save(&SavePlace::of(path))
    }

    #[test]
    fn a_last_part_comes_back() {
        let (folder, store) = (Folder::new("last-part"), in_work());
        let path = folder.0.join("store");
        for length in [0, 1, 8, 100_000] {
            let last_part: Vec<u8> = (0..length).map(|i: u64| (i * i) as u8).collect();
            save(&store, &last_part, &path, |_| ()).unwrap();
            let loaded = load(&path).unwrap();
            assert!(loaded.store == store && loaded.last_part == last_part);
            // a salt alone goes with any store
            match Store::load(&path) {
                Ok(loaded) => assert!(length % 8 == 0 && length <= 8 && loaded == store),
                Err(error) => assert!(matches!(error, FileError::Numbers), "{length}"),
            }
        }
        store.save(&path).unwrap();
        assert!(load(&path).unwrap().last_part.is_empty());
    }

    /// Whatever does not go with the state is refused, and what was saved before stays.
    #[test]
    fn parts_of_wrong_lengths_are_not_saved() {
        let (folder, store) = (Folder::new("parts"), in_work());
        let path = folder.0.join("store");
        store.save(&path).unwrap();
        let changes: [fn(&mut Taken<'_>); 6] = [
            |taken| taken.nodes = &taken.nodes[1..],
            |taken| taken.nodes = &[],
            |taken| taken.register = &taken.register[1..],
            |taken| taken.state.places += 1,
            |taken| taken.page = &|_| &[0; 15],
            |taken| taken.page = &|_| &[],
        ];
        for change in changes {
            let error = save(&store, &[], &path, change).unwrap_err();
            assert!(matches!(error, FileError::AreaLengths), "{error}");
        }
        assert!(Store::load(&path).unwrap() == store);
        assert_eq!(std::fs::read_dir(&folder.0).unwrap().count(), 1);
    }

    fn put(register: &[Record], state: &State) -> Vec<u64> {
        put_pages(register, state).collect()
    }

    #[test]
    fn the_pages_that_are_put() {
        let store = in_work();
        let (mut state, register) = (store.state(), store.areas().register());
        assert_eq!(put(register, &state), [0, 1, 3]);
        // any record, and fewer of them than tickets
        state.tickets = u64::MAX;
        for number in [0, 5, 7, 8, u64::MAX - 70, u64::MAX] {
            for n in [0, 1, 64, 65, u64::MAX] {
                let mut any = [Record::default(); 3];
                (any[1].number, any[1].n, any[1].put) = (number, n, u64::MAX);
                let last = number.saturating_add(n.min(64)).min(8);
                let due: Vec<u64> = (number..last).collect();
                assert_eq!(put(&any, &state), due, "{n} from {number}");
            }
        }
        // of the tickets given alone
        state.tickets = 1;
        assert_eq!(put(register, &state), [0, 1]);
    }
}
