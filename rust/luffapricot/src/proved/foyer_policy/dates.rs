//! The expiry dates of items, in the order of their lists.

// Written by rust/erase/erase.py from crates/foyer_policy/src/dates.rt: change that.
#[allow(unused_imports)]
use crate::rattle_std::prelude::*;
use crate::proved::foyer_policy::dates::slots::Slots;
use crate::proved::foyer_policy::error::Result;
use crate::proved::foyer_policy::lists::{Lists, Place};
use crate::proved::foyer_policy::queued::HasItem;
use crate::rattle_std::alloc::Global;

mod slots;

pub(crate) use slots::Gone;

/// The largest number of dates of a list. Places that have a date are below it.
pub(crate) const MOST: usize = u32::MAX as usize;

// The least number of spare slots.
const FEW: usize = 32;

/// Places of some lists with their dates, in the order of each list, so that the first one that is due is found in
/// steps that grow with the logarithm of their number. A date is only appended to a list, as its value is, and the
/// number of its slot is noted beside that. Only `new` and `reserve` take memory.
///
/// The dates of a list are in slots, in the order in which they came, and a tree has the least date of each block of
/// slots. A date that is removed leaves its slot empty. When all lists together have as many slots as they may, the
/// empty ones are dropped.
pub(crate) struct Dates {
    // The slots of each list.
    rows: Vec<Slots>,
    // The largest number of slots, of all lists together.
    limit: usize,
    // The number of slots.
    used: usize,
    // The number of slots that aren't empty.
    taken: usize,
    // The number of dates in lists whose dates aren't kept.
    beside: usize,
    alloc: Global,
}

impl Dates {
    /// Creates dates for so many lists, with room for so many dates.
    ///
    /// # Errors
    /// F7 if memory runs out.
    #[inline]
    pub(crate) fn new(alloc: Global, lists: u8, count: usize) -> Result<Self> {
        let mut rows = Vec::new(alloc);
        for _list in 0..lists {
            let row = Slots::new(alloc, count)?;
            rows.push(row)?;
        }
        Ok(Dates { rows, limit: count.min(MOST), used: 0, taken: 0, beside: 0, alloc })
    }

    /// Returns how many lists have their dates kept, the first ones. Of the others only the number of dates is known.
    #[inline(always)]
    pub(crate) fn lists(&self) -> usize {
        self.rows.len()
    }

    /// Returns whether more slots are free than taken.
    #[inline(always)]
    pub(crate) fn has_room(&self) -> bool {
        let count = self.taken.saturating_add(self.beside);
        count < self.limit.saturating_sub(count)
    }

    /// Makes room for one more date.
    ///
    /// # Errors
    /// F7 if memory runs out; nothing else has changed.
    #[inline]
    pub(crate) fn reserve<T: HasItem, const N: usize>(&mut self, lists: &mut Lists<T, N>) -> Result<()> {
        if self.has_room() || self.limit >= MOST {
            return Ok(());
        }
        let count = self.taken.saturating_add(self.beside);
        let wanted = count.saturating_mul(4).saturating_add(FEW).min(MOST);
        let mut limit = MOST;
        for list in 0..self.rows.len() {
            let row = &mut self.rows[list];
            row.grow(self.alloc, lists, wanted)?;
            limit = limit.min(row.limit());
        }
        self.limit = limit;
        self.used = self.taken;
        Ok(())
    }

    // Drops the empty slots of all lists. It takes no memory.
    #[cold]
    #[inline(never)]
    fn close_up<T: HasItem, const N: usize>(&mut self, lists: &mut Lists<T, N>) {
        for list in 0..self.rows.len() {
            self.rows[list].close_up(lists);
        }
        self.used = self.taken;
    }

    /// Appends a place with its date to a list, and returns the number of its slot, or `None` if there is no room.
    /// Takes no memory.
    #[inline(always)]
    pub(crate) fn push<T: HasItem, const N: usize>(
        &mut self,
        lists: &mut Lists<T, N>,
        list: usize,
        place: Place,
        date: u64,
    ) -> Option<usize> {
        if list >= self.rows.len() {
            self.beside = self.beside.saturating_add(1);
            return Some(0);
        }
        if self.used >= self.limit {
            self.close_up(lists);
        }
        let slot = self.rows[list].push(place, date)?;
        self.used = self.used.saturating_add(1);
        self.taken = self.taken.saturating_add(1);
        Some(slot)
    }

    /// Removes the date of a place from a list. It must have one if the list's dates are kept. Takes no memory.
    #[inline(always)]
    pub(crate) fn remove(&mut self, list: usize, place: Place, gone: Gone) {
        if list >= self.rows.len() {
            self.beside = self.beside.saturating_sub(1);
            return;
        }
        self.taken = self.taken.saturating_sub(1);
        self.rows[list].take_out(place, gone);
    }

    /// Returns whether no date of a list is due, as far as that is known without looking at them.
    #[inline(always)]
    pub(crate) fn are_behind(&self, list: usize, now: u64) -> bool {
        self.rows[list].are_behind(now)
    }

    /// Returns the first place of a list whose date is due at `now`.
    #[inline]
    pub(crate) fn first(&self, list: usize, now: u64) -> Option<Place> {
        self.rows[list].first(now)
    }
}
