//! Hints about memory, to the system and to the processor. They change no answer, only the time that it takes.

use std::arch::x86_64::{_mm_prefetch, _MM_HINT_T0};
use std::ops::Range;
use std::os::raw::{c_int, c_void};

/// Memory of so many bytes and more is to lie in huge pages, of 2 MiB. In less, there would be one of them at most, or none.
const LARGE: usize = 4 << 20;
/// The system's pages, on x86-64.
const SYSTEM_PAGE: usize = 4_096;
/// `MADV_HUGEPAGE`.
const HUGE_PAGES: c_int = 14;

extern "C" {
    fn madvise(address: *mut c_void, length: usize, advice: c_int) -> c_int;
}

/// So many zeros, in huge pages where they are many. Memory of that length comes from the system untouched, so that the hint is in time.
pub fn zeros(length: usize) -> Box<[u8]> {
    let bytes: Vec<u8> = vec![0; length];
    advise(bytes.as_ptr() as usize, length);
    bytes.into()
}

/// A copy of these bytes, in huge pages where they are many.
pub fn copy_of(bytes: &[u8]) -> Box<[u8]> {
    let mut copy: Vec<u8> = Vec::with_capacity(bytes.len());
    advise(copy.as_ptr() as usize, bytes.len());
    copy.extend_from_slice(bytes);
    copy.into()
}

/// Asks for huge pages in memory of so many bytes from an address on, where it is large. What is not touched still takes no memory, but for
/// what lies in one huge page with something that is.
fn advise(address: usize, length: usize) {
    if let Some(within) = whole_pages(address, length).filter(|_| length >= LARGE) {
        // SAFETY: the hint keeps the bytes, wherever it is given. Where the system does not take it, all is as without.
        unsafe { madvise(within.start as *mut c_void, within.len(), HUGE_PAGES) };
    }
}

/// The system's pages that lie wholly within so many bytes from an address on.
fn whole_pages(address: usize, length: usize) -> Option<Range<usize>> {
    let begin = address.checked_add(SYSTEM_PAGE - 1)? / SYSTEM_PAGE * SYSTEM_PAGE;
    let end = address.checked_add(length)? / SYSTEM_PAGE * SYSTEM_PAGE;
    (begin < end).then_some(begin..end)
}

/// These bytes are read soon: the processor is to fetch the first of them, and with that their page's address. It goes on by itself then.
#[inline]
pub fn prefetch(bytes: &[u8]) {
    // SAFETY: the hint reads nothing that a program could see, from any address.
    unsafe { _mm_prefetch::<_MM_HINT_T0>(bytes.as_ptr().cast()) };
}

#[cfg(test)]
mod tests {
    use super::*;
    use std::{fs, path::Path};

    #[test]
    fn whole_pages_are_aligned_and_within() {
        let lengths = [
            0,
            1,
            4_095,
            4_096,
            4_097,
            8_191,
            8_192,
            LARGE - 1,
            LARGE,
            LARGE + 1,
        ];
        for length in lengths {
            for address in [4_096, 4_097, 8_191, 65_536 + 16, 1 << 40] {
                match whole_pages(address, length) {
                    Some(pages) => {
                        assert!(pages.start % 4_096 == 0 && pages.end % 4_096 == 0);
                        assert!(address <= pages.start && pages.start < pages.end);
                        assert!(pages.end <= address + length);
                        // what is left out at each end is less than a page
                        assert!(pages.start - address < 4_096);
                        assert!(address + length - pages.end < 4_096);
                    }
                    None => assert!(length < 2 * 4_096, "{address} {length}"),
                }
            }
        }
        assert_eq!(whole_pages(usize::MAX, 0), None);
        assert_eq!(whole_pages(usize::MAX - 5_000, usize::MAX), None);
    }

    /// Whether the system's note of the mapping that this byte lies in has the flag of huge pages.
    fn is_advised(byte: &u8) -> bool {
        let address = byte as *const u8 as usize;
        let notes = fs::read_to_string("/proc/self/smaps").expect("Linux has it");
        let number = |text: &str| usize::from_str_radix(text, 16).ok();
        let range = |line: &str| {
            let (begin, end) = line.split(' ').next()?.split_once('-')?;
            Some(number(begin)?..number(end)?)
        };
        let of_it = |line: &&str| range(line).map_or(false, |range| range.contains(&address));
        let mut lines = notes.lines();
        lines.find(of_it).expect("the byte lies in a mapping");
        let flags = lines.find_map(|line| line.strip_prefix("VmFlags:"));
        flags.map_or(false, |flags| flags.split(' ').any(|flag| flag == "hg"))
    }

    /// In the middle, and of lengths around the one from which on it is asked for.
    #[test]
    fn large_memory_is_advised_and_holds_its_bytes() {
        let can = Path::new("/sys/kernel/mm/transparent_hugepage").exists();
        for length in [LARGE, LARGE + 1, 40 << 20] {
            let mut bytes = zeros(length);
            assert_eq!(is_advised(&bytes[length / 2]), can, "{length}");
            assert!(bytes.len() == length && bytes.iter().all(|byte| *byte == 0));
            bytes
                .iter_mut()
                .zip(0..)
                .for_each(|(byte, k)| *byte = (k % 251) as u8);
            let copy = copy_of(&bytes);
            assert_eq!(is_advised(&copy[length / 2]), can, "{length}");
            assert!(copy == bytes);
        }
        assert_eq!((zeros(0).len(), copy_of(&[]).len()), (0, 0));
        assert_eq!((&*zeros(2), &*copy_of(&[1, 2])), (&[0, 0][..], &[1, 2][..]));
    }
}
