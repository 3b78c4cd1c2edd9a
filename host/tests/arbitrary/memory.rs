//! Memory to lend: each area is the middle of a longer run, and what stands around it must stay.

use crate::random::named;
use pit_host::{LineState, PartsMut, Record, State};
use std::mem::size_of;

/// How many elements stand before and after an area, in bytes about 400. With a `PIT_FENCE` of 0 the memory ends where
/// the area does, for a tool that watches the ends of memory itself.
fn fence<T>() -> usize {
    thread_local!(static BYTES: usize = named("PIT_FENCE", 400) as usize);
    BYTES.with(|bytes| (bytes + size_of::<T>() - 1) / size_of::<T>())
}

/// Elements to lend, with marks before and after them.
#[derive(Clone, PartialEq)]
pub struct Fenced<T> {
    whole: Vec<T>,
    mark: T,
}

impl<T: Copy + PartialEq> Fenced<T> {
    pub fn new(lent: &[T], mark: T) -> Fenced<T> {
        let mut whole = vec![mark; lent.len() + 2 * fence::<T>()]; // of just this length
        whole[fence::<T>()..][..lent.len()].copy_from_slice(lent);
        Fenced { whole, mark }
    }

    fn end(&self) -> usize {
        self.whole.len() - fence::<T>()
    }

    pub fn part(&self) -> &[T] {
        &self.whole[fence::<T>()..self.end()]
    }

    pub fn parts_mut(&mut self) -> &mut [T] {
        let end = self.end();
        &mut self.whole[fence::<T>()..end]
    }

    /// What stands before and after what is lent.
    pub fn fences(&self) -> (&[T], &[T]) {
        (&self.whole[..fence::<T>()], &self.whole[self.end()..])
    }

    /// With another length: cut off, or longer by a filling.
    pub fn resize(&mut self, length: usize, filling: T) {
        let mut lent = self.part().to_vec();
        lent.resize(length, filling);
        *self = Fenced::new(&lent, self.mark);
    }
}

/// The areas of a store.
#[derive(Clone, PartialEq)]
pub struct Memory {
    pub pages: Fenced<u8>,
    pub nodes: Fenced<u32>,
    pub register: Fenced<Record>,
}

impl Memory {
    pub fn new(pages: &[u8], nodes: &[u32], register: &[Record]) -> Memory {
        let mut mark = Record::default();
        mark.each()
            .into_iter()
            .for_each(|number| *number = 0xfe9c_e002);
        Memory {
            pages: Fenced::new(pages, 0xfe),
            nodes: Fenced::new(nodes, 0xfe9c_e001),
            register: Fenced::new(register, mark),
        }
    }

    pub fn parts_mut(&mut self) -> PartsMut<'_> {
        PartsMut {
            pages: self.pages.parts_mut(),
            nodes: self.nodes.parts_mut(),
            register: self.register.parts_mut(),
        }
    }

    /// What stands around the areas.
    pub fn fences(&self) -> impl PartialEq + '_ {
        let (pages, nodes) = (self.pages.fences(), self.nodes.fences());
        (pages, nodes, self.register.fences())
    }
}

/// A struct that is numbers, in the order of its fields.
pub trait Numbers: Copy + Default {
    fn each(&mut self) -> Vec<&mut u64>;

    fn numbers(mut self) -> Vec<u64> {
        self.each().into_iter().map(|number| *number).collect()
    }
}

macro_rules! numbers {
    ($of:ident: $($field:ident),*) => {
        vec![$(&mut $of.$field),*]
    };
}

impl Numbers for State {
    #[rustfmt::skip]
    fn each(&mut self) -> Vec<&mut u64> {
        let mut numbers =
            numbers!(self: size, pages, nodes, updates, tickets, taken, assigned, places, begun, sources);
        numbers.extend(&mut self.lines);
        numbers
    }
}

impl Numbers for LineState {
    fn each(&mut self) -> Vec<&mut u64> {
        numbers!(self: source, start, assigned, published, blob)
    }
}

impl Numbers for Record {
    fn each(&mut self) -> Vec<&mut u64> {
        let e = &mut self.entries;
        let mut numbers = numbers!(self: n, number, put, update, ticket, name, f, last);
        numbers.extend(numbers!(self: top, past, span, size, count, woven));
        numbers.extend(numbers!(e: from0, from4, from8, from12));
        numbers
    }
}
