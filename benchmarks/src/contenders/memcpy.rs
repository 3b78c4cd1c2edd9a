//! The bytes alone: one run of memory, copied from and to. It keeps no versions; it is the floor.

use crate::contenders::Contender;
use crate::workload::{Shape, Update};

pub struct Memcpy {
    page_size: usize,
    bytes: Vec<u8>,
}

impl Memcpy {
    pub fn new(shape: &Shape) -> Memcpy {
        Memcpy {
            page_size: shape.page_size,
            bytes: vec![0; shape.page_size * shape.blob],
        }
    }
}

impl Contender for Memcpy {
    fn update(&mut self, first: usize, bytes: &[u8]) {
        self.bytes[first * self.page_size..][..bytes.len()].copy_from_slice(bytes);
    }

    fn view(&self, _version: usize, page: usize) -> &[u8] {
        &self.bytes[page * self.page_size..][..self.page_size]
    }

    fn read_run(&self, _version: usize, run: Update, to: &mut [u8]) {
        to.copy_from_slice(&self.bytes[run.first * self.page_size..][..to.len()]);
    }

    fn keeps_versions(&self) -> bool {
        false
    }
}
