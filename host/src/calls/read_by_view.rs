//! READ by VIEW. The proved READ looks each of several pages up twice, the first time to refuse before it has copied any. Here each is looked up once, by VIEW, and all are copied then. Where VIEW refuses a page, READ answers, by its own rows.

use crate::calls::areas::{Storage, MOST_PAGES};
use crate::calls::counters::{ByteOffset, Line, PageIndex, Version};
use crate::calls::hints::prefetch;
use crate::calls::store::Store;
use std::iter;

/// A READ of so many pages' bytes and more is one of many.
const MANY: u64 = 2;
/// Where pages have so many bytes and more, the next one is fetched while one is copied. With 256 bytes that took longer than without.
const PREFETCHED: usize = 1_024;

impl<A: Storage> Store<A> {
    /// READ of bytes that lie within one page. None where they do not, or VIEW does not have that page.
    #[inline]
    pub(crate) fn read_in_page(
        &self,
        line: Line,
        version: Version,
        from: ByteOffset,
        buffer: &mut [u8],
    ) -> Option<()> {
        let size = self.state().size;
        let (page, skip) = (from.0.checked_div(size)?, from.0.checked_rem(size)?);
        let end = skip.checked_add(buffer.len() as u64)?;
        if buffer.is_empty() || end > size {
            return None;
        }
        let bytes = self.view(line, version, PageIndex(page)).ok()?;
        buffer.copy_from_slice(bytes.get(skip as usize..end as usize)?);
        Some(())
    }

    /// The numbers of the pages that so many bytes of a version lie in, where these are many and VIEW has all of them. Where it refuses one
    /// of them, READ refuses all, by its own rows.
    pub(crate) fn numbers_of_many(
        &self,
        line: Line,
        version: Version,
        from: ByteOffset,
        length: usize,
    ) -> Option<Vec<u64>> {
        let (size, length) = (self.state().size, length as u64);
        if size == 0 || length < size.saturating_mul(MANY) {
            return None;
        }
        let pages = from.0 / size..=from.0.checked_add(length - 1)? / size;
        let count = length / size + 2; // or less
        let mut numbers = Vec::with_capacity(count.min(MOST_PAGES) as usize);
        for page in pages {
            let (begin, _) = self.view_place(line, version, PageIndex(page)).ok()?;
            numbers.push(begin as u64 / size);
        }
        Some(numbers)
    }

    /// Fills a buffer with the bytes of these pages, from a byte of the first on. Gives none where the area has not all of them.
    pub(crate) fn copy_numbered(
        &self,
        numbers: Vec<u64>,
        from: ByteOffset,
        buffer: &mut [u8],
    ) -> Option<()> {
        let size = usize::try_from(self.state().size).ok()?;
        let pages = self.areas().parts().pages;
        let page = |number: u64| {
            let begin = usize::try_from(number).ok()?.checked_mul(size)?;
            pages.get(begin..)?.get(..size)
        };
        let skip = from.0.checked_rem(size as u64)? as usize;
        copy_pages(numbers.into_iter().map(page), size, skip, buffer)
    }
}

/// Fills a buffer with the bytes of these pages, each of so many, one after the other, from a byte of the first on. Gives none where one of
/// them is none, or they are too few.
#[inline]
pub fn copy_pages<'a>(
    pages: impl Iterator<Item = Option<&'a [u8]>>,
    size: usize,
    skip: usize,
    buffer: &mut [u8],
) -> Option<()> {
    if size < PREFETCHED || skip + buffer.len() <= size {
        return copy_each(pages, skip, buffer);
    }
    let mut pages = pages.take((skip + buffer.len() - 1) / size + 1).peekable();
    let ahead = iter::from_fn(|| {
        let page = pages.next();
        if let Some(Some(next)) = pages.peek() {
            prefetch(next);
        }
        page
    });
    copy_each(ahead, skip, buffer)
}

#[inline]
fn copy_each<'a>(
    mut pages: impl Iterator<Item = Option<&'a [u8]>>,
    mut skip: usize,
    buffer: &mut [u8],
) -> Option<()> {
    let mut rest = buffer;
    while !rest.is_empty() {
        let from = pages.next()??.get(skip..)?;
        let (front, after) = rest.split_at_mut(from.len().min(rest.len()));
        front.copy_from_slice(&from[..front.len()]);
        (rest, skip) = (after, 0);
    }
    Some(())
}

#[cfg(test)]
mod tests;
