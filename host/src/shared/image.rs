//! The image of a store at one moment, to be saved without its lock.

use super::page_area::PageArea;
use crate::calls::areas::Storage;
use crate::calls::counters::Version;
use crate::calls::error::Error;
use crate::calls::ffi::{Record, State, Windows};
use crate::calls::store::Store;
use crate::disk::file::{last_part, put_pages, FileError, SavePlace, Taken};
use std::path::Path;
use std::sync::Arc;

/// A store as it is at one moment: all that is taken but the pages copied, and the pages that are put, which stay as they are, where
/// they lie. The others are zeros.
pub struct Image {
    /// The last published version of line 0, as callers count.
    pub recent: Version,
    /// Whether FORMAT could have made the areas that it was in.
    pub has_its_areas: bool,
    pub state: State,
    pub windows: Windows,
    pub nodes: Vec<u32>,
    pub register: Vec<Record>,
    pub numbers: Vec<u8>,
    pub pages: Arc<PageArea>,
}

impl Image {
    /// Saves it, as [`Store::save`] says, and gives the last published version of line 0 as callers count.
    pub fn save(&self, path: &Path) -> Result<Version, FileError> {
        self.save_at(&SavePlace::of(path))
    }

    /// Saves it in a place.
    pub fn save_at(&self, place: &SavePlace) -> Result<Version, FileError> {
        self.state.limits().check().map_err(FileError::Limits)?;
        if !self.has_its_areas {
            return Err(FileError::AreaLengths);
        }
        let zeros = vec![0; self.pages.page_size()];
        // as it was at the moment: later ones are put by now
        let mut put = vec![false; self.pages.len()];
        for number in put_pages(&self.register, &self.state) {
            if let Some(put) = put.get_mut(number as usize) {
                *put = true;
            }
        }
        let page = |number: u64| {
            let is_put = put.get(number as usize) == Some(&true);
            let bytes = self.pages.page(number).filter(|_| is_put);
            bytes.unwrap_or(&zeros)
        };
        let taken = Taken {
            state: self.state,
            windows: self.windows,
            page: &page,
            nodes: &self.nodes,
            register: &self.register,
            last_part: &last_part(place.journal, &self.numbers),
        };
        taken.save(place).map(|_| self.recent)
    }

    /// The store. What is not taken is as FORMAT leaves it.
    pub fn to_store(&self) -> Result<Store, Error> {
        let (mut store, size) = (Store::format(self.state.limits())?, self.pages.page_size());
        let areas = store.areas_mut().parts_mut();
        for number in put_pages(&self.register, &self.state) {
            let place = areas.pages.chunks_exact_mut(size).nth(number as usize);
            if let (Some(place), Some(bytes)) = (place, self.pages.page(number)) {
                place.copy_from_slice(bytes);
            }
        }
        areas.nodes[..self.nodes.len()].copy_from_slice(&self.nodes);
        areas.register[..self.register.len()].copy_from_slice(&self.register);
        let (_, _, areas) = store.into_parts();
        Ok(Store::resume(self.state, self.windows, areas))
    }
}
