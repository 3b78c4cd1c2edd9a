//! Page memory of a store that threads share: PUT writes a page once, and from then on anybody may read it without a lock.
//!
//! A page that is put is never written again. By that alone a reader may hold its bytes while a writer's call runs: the
//! proved PUT writes the bytes of the one page that it is asked for and no others, whatever store and areas it is given. Which
//! page that is, and that it is not yet put, is looked up here again, in bits of the host's own: so this holds over any
//! store, also one that no run of calls left.

use crate::calls::areas::{Parts, PartsMut, Storage};
use crate::calls::ffi::{RawAreas, Record};
use crate::calls::read_by_view::copy_pages;
use std::cell::UnsafeCell;
use std::sync::atomic::{AtomicU64, Ordering};
use std::sync::Arc;

const BITS: u64 = u64::BITS as u64;

/// The page area of a shared store, for those who read it.
pub struct PageArea {
    bytes: Box<[UnsafeCell<u8>]>,
    /// A page's length in bytes; not 0.
    page: usize,
    /// A bit a page: put for good.
    put: Box<[AtomicU64]>,
}

// SAFETY: a byte is written only by `PageWriter`, of which an area has one, by `&mut`, and only while its page's bit is 0. It is
// read by others only after the bit was seen to be 1 (`page`), or through `&PageWriter`, while nobody can write.
unsafe impl Sync for PageArea {}

impl PageArea {
    /// The bytes of a page that is put; none of one that is not.
    #[inline]
    pub fn page(&self, number: u64) -> Option<&[u8]> {
        if !self.is_put(number) {
            return None;
        }
        let begin = usize::try_from(number).ok()?.checked_mul(self.page)?;
        let cells = self.bytes.get(begin..)?.get(..self.page)?;
        // SAFETY: cells of bytes, in bounds; the page's bit is 1, so nobody writes them any more, and what was written
        // came before the bit.
        Some(unsafe { std::slice::from_raw_parts(cells.as_ptr().cast(), cells.len()) })
    }

    /// Fills a buffer with the bytes of these pages, one after the other, from a byte of the first on. Gives none where one of them is not
    /// put, or they are too few.
    pub fn read(
        &self,
        numbers: impl IntoIterator<Item = u64>,
        skip: usize,
        buffer: &mut [u8],
    ) -> Option<()> {
        let pages = numbers.into_iter().map(|number| self.page(number));
        copy_pages(pages, self.page, skip, buffer)
    }

    /// Whether some of these bytes lie in it.
    pub fn holds(&self, bytes: &[u8]) -> bool {
        let (area, other) = (self.bytes.as_ptr() as usize, bytes.as_ptr() as usize);
        area < other + bytes.len() && other < area + self.bytes.len()
    }

    /// Whether a page is put.
    #[inline]
    pub fn is_put(&self, number: u64) -> bool {
        let word = usize::try_from(number / BITS).ok();
        let word = word.and_then(|word| self.put.get(word));
        word.map_or(false, |word| {
            word.load(Ordering::Acquire) >> (number % BITS) & 1 == 1
        })
    }

    /// How many pages it has room for.
    pub fn len(&self) -> usize {
        self.bytes.len() / self.page
    }

    /// A page's length in bytes.
    pub fn page_size(&self) -> usize {
        self.page
    }

    fn set_put(&self, number: u64) {
        let word = usize::try_from(number / BITS).ok();
        if let Some(word) = word.and_then(|word| self.put.get(word)) {
            word.fetch_or(1 << (number % BITS), Ordering::Release);
        }
    }
}

/// The one who may write a page area.
pub struct PageWriter {
    area: Arc<PageArea>,
}

impl PageWriter {
    /// An area with these bytes and page length, in which these pages are put.
    pub fn new(bytes: Box<[u8]>, page: u64, put: impl Iterator<Item = u64>) -> PageWriter {
        let page = usize::try_from(page).unwrap_or(usize::MAX).max(1);
        let words = bytes.len() / page / BITS as usize + 1;
        // SAFETY: a cell has the layout of what is in it, and the box is handed on whole.
        let bytes = unsafe { Box::from_raw(Box::into_raw(bytes) as *mut [UnsafeCell<u8>]) };
        let area = PageArea {
            bytes,
            page,
            put: (0..words).map(|_| AtomicU64::new(0)).collect(),
        };
        put.for_each(|number| area.set_put(number));
        PageWriter {
            area: Arc::new(area),
        }
    }

    /// The area, to be kept by those who read it.
    pub fn area(&self) -> &Arc<PageArea> {
        &self.area
    }

    /// All of it, while nobody can write.
    fn all(&self) -> &[u8] {
        let cells = &self.area.bytes;
        // SAFETY: cells of bytes. They are written through `&mut self` alone, which nobody has meanwhile.
        unsafe { std::slice::from_raw_parts(cells.as_ptr().cast(), cells.len()) }
    }
}

/// The areas of a store that threads share.
pub struct SharedAreas {
    pages: PageWriter,
    nodes: Box<[u32]>,
    register: Box<[Record]>,
}

impl SharedAreas {
    pub fn new(pages: PageWriter, nodes: Box<[u32]>, register: Box<[Record]>) -> SharedAreas {
        SharedAreas {
            pages,
            nodes,
            register,
        }
    }

    /// Notes that a page is put, after PUT has written it.
    pub fn set_put(&mut self, number: u64) {
        self.pages.area.set_put(number);
    }
}

impl Storage for SharedAreas {
    #[inline]
    fn parts(&self) -> Parts<'_> {
        Parts {
            pages: self.pages.all(),
            nodes: &self.nodes,
            register: &self.register,
        }
    }

    /// Without pages: nobody has all of them to himself, since readers may hold what is put. The calls go by `raw`.
    fn parts_mut(&mut self) -> PartsMut<'_> {
        PartsMut {
            pages: &mut [],
            nodes: &mut self.nodes,
            register: &mut self.register,
        }
    }

    #[inline]
    fn raw(&mut self) -> RawAreas<'_> {
        let cells = &self.pages.area.bytes;
        let pages = UnsafeCell::raw_get(cells.as_ptr());
        // SAFETY: the bytes live as long as the area, and `&mut self` is the only writer. `Instance` alone calls PUT on these areas. It
        // looks first whether the page is put: what is not, nobody reads; and copies bytes that lie in the area.
        unsafe { RawAreas::new(pages, cells.len(), &mut self.nodes, &mut self.register) }
    }
}

#[cfg(test)]
mod tests {
    use super::*;

    /// An area of three pages of four bytes, of which the first and the last are put.
    fn area() -> PageWriter {
        let bytes: Vec<u8> = (0..12).collect();
        PageWriter::new(bytes.into(), 4, [0, 2].into_iter())
    }

    #[test]
    fn pages_that_are_put_are_read_in_any_order() {
        let (writer, mut buffer) = (area(), [99; 6]);
        let area = writer.area();
        assert_eq!(area.read([2, 0], 1, &mut buffer), Some(()));
        assert_eq!(buffer, [9, 10, 11, 0, 1, 2]);
        assert_eq!(area.read([], 0, &mut []), Some(()));
        for numbers in [&[2][..], &[0, 1], &[1], &[3], &[u64::MAX], &[]] {
            let read = area.read(numbers.iter().copied(), 0, &mut buffer);
            assert_eq!(read, None, "{numbers:?}");
        }
        assert_eq!(area.read([0, 2], 5, &mut buffer), None);
    }

    #[test]
    fn bytes_of_the_area_are_told_from_others() {
        let (writer, other) = (area(), [0, 1, 2, 3]);
        let area = writer.area();
        let page = area.page(2).expect("put");
        assert!(area.holds(page) && area.holds(&page[3..]));
        assert!(!area.holds(&other) && !area.holds(&page[4..]) && !area.holds(&[]));
    }
}
