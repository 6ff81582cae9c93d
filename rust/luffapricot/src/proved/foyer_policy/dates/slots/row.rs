//! A row of slots, in two columns.

// Written by rust/erase/erase.py from crates/foyer_policy/src/dates/slots/row.rt: change that.
#[allow(unused_imports)]
use crate::rattle_std::prelude::*;
use crate::proved::foyer_policy::error::Result;
use crate::proved::foyer_policy::lists::Place;
use crate::rattle_std::alloc::Global;

/// The bound of the places in slots. An empty slot has this number.
pub(crate) const PLACES: u32 = u32::MAX;

/// Slots in a row, each with a place and its date, or empty. The places are apart from the dates, so that finding and
/// emptying a slot reads and writes four bytes.
pub(crate) struct Row {
    dates: Vec<u64>,
    places: Vec<u32>,
}

impl Row {
    /// Creates no slots, with room for so many.
    ///
    /// # Errors
    /// F7 if memory runs out.
    #[inline]
    pub(crate) fn with_capacity(alloc: Global, count: usize) -> Result<Self> {
        let dates = Vec::with_capacity(alloc, count)?;
        let places = Vec::with_capacity(alloc, count)?;
        Ok(Row { dates, places })
    }

    /// Copies the slots, with room for so many.
    ///
    /// # Errors
    /// F7 if memory runs out.
    #[inline]
    pub(crate) fn with_room(&self, alloc: Global, count: usize) -> Result<Self> {
        let mut dates = Vec::with_capacity(alloc, count)?;
        let mut places = Vec::with_capacity(alloc, count)?;
        dates.extend_from_slice(&self.dates)?;
        places.extend_from_slice(&self.places)?;
        Ok(Row { dates, places })
    }

    /// Returns how many slots there may be.
    #[inline(always)]
    pub(crate) fn capacity(&self) -> usize {
        self.dates.capacity().min(self.places.capacity())
    }

    /// Returns how many slots there are.
    #[inline(always)]
    pub(crate) fn len(&self) -> usize {
        self.dates.len()
    }

    /// Returns the place and the date of the slot at an index below their number, or `None` if it is empty.
    #[inline(always)]
    pub(crate) fn get(&self, index: usize) -> Option<(Place, u64)> {
        let date = self.dates[index];
        let place = self.places[index];
        if place == PLACES {
            return None;
        }
        Some((Place::at(place as usize), date))
    }

    /// Writes the slot at an index below their number.
    #[inline(always)]
    pub(crate) fn set(&mut self, index: usize, place: Place, date: u64) {
        self.dates[index] = date;
        self.places[index] = place.number() as u32;
    }

    /// Empties the slot at an index below their number.
    #[inline(always)]
    pub(crate) fn empty(&mut self, index: usize) {
        self.places[index] = PLACES;
    }

    /// Appends a slot. Needs room.
    #[inline(always)]
    pub(crate) fn push_reserved(&mut self, place: Place, date: u64) {
        self.dates.push_reserved(date);
        self.places.push_reserved(place.number() as u32);
    }

    /// Drops all slots but the first `count`.
    #[inline]
    pub(crate) fn truncate(&mut self, count: usize) {
        self.dates.truncate(count);
        self.places.truncate(count);
    }
}
