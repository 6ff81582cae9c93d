//! Slots for the dates of a list.

// Written by rust/erase/erase.py from crates/foyer_policy/src/dates/slots.rt: change that.
#[allow(unused_imports)]
use crate::rattle_std::prelude::*;
use super::MOST;
use crate::proved::foyer_policy::dated_lists::noting::note_slot;
use crate::proved::foyer_policy::error::Result;
use crate::proved::foyer_policy::lists::{Lists, Place};
use crate::proved::foyer_policy::min_tree::MinTree;
use crate::proved::foyer_policy::queued::HasItem;
use crate::rattle_std::alloc::Global;

mod leaves;
mod row;

use leaves::{lower, raise, refresh_all};
use row::{PLACES, Row};

// The number of slots in a block, which has one leaf of the tree.
const BLOCK: usize = 32;

/// Places of a list with their dates, in slots, in the order in which they came. A date that is removed leaves its
/// slot empty until the empty slots are dropped.
pub(crate) struct Slots {
    row: Row,
    // The largest number of slots.
    limit: usize,
    // For each block, a number that none of its dates is below: the least, but in the marked block, where it may be
    // less.
    tree: MinTree,
}

/// What is known of a date that is removed.
#[derive(Clone, Copy)]
pub(crate) struct Gone {
    pub(crate) date: u64,
    /// The slot that was noted beside its value.
    pub(crate) slot: usize,
    /// Whether its place was the first of its list.
    pub(crate) was_first: bool,
}

// Moves the taken slots to the front, in order, and returns how many they are. Each is noted beside its value.
#[inline]
fn gather<T: HasItem, const N: usize>(row: &mut Row, lists: &mut Lists<T, N>) -> usize {
    let mut to = 0;
    for from in 0..row.len() {
        if let Some((place, date)) = row.get(from) {
            row.empty(from);
            row.set(to, place, date);
            note_slot(lists, place, to);
            to += 1;
        }
    }
    to
}

// The place of the first slot, from one on and before another, whose date is due at `now`.
#[inline]
fn first_between(row: &Row, start: usize, end: usize, now: u64) -> Option<Place> {
    for index in start..end.min(row.len()) {
        if let Some((place, date)) = row.get(index) {
            if date <= now {
                return Some(place);
            }
        }
    }
    None
}

// The slot of a place that has one: the noted slot, if it is that, or else by a search.
#[inline(always)]
fn find(row: &Row, place: Place, noted: usize) -> usize {
    if noted < row.len() {
        if let Some((at, _)) = row.get(noted) {
            if at.number() == place.number() {
                return noted;
            }
        }
    }
    search(row, place)
}

// The slot of a place that has one, by a search from the first slot on. Never called if each slot is noted beside its
// value.
#[cold]
#[inline(never)]
fn search(row: &Row, place: Place) -> usize {
    for index in 0..row.len() {
        if let Some((at, _)) = row.get(index) {
            if at.number() == place.number() {
                return index;
            }
        }
    }
    crate::rattle_std::macros::unreachable!()
}

impl Slots {
    /// Creates no slots, with room for so many, at most 2^32 - 1.
    ///
    /// # Errors
    /// F7 if memory runs out.
    #[inline]
    pub(crate) fn new(alloc: Global, limit: usize) -> Result<Self> {
        let limit = limit.min(MOST);
        let tree = MinTree::new(alloc, limit / BLOCK + 1)?;
        let row = Row::with_capacity(alloc, limit)?;
        Ok(Slots { row, limit, tree })
    }

    /// Returns how many slots there may be.
    #[inline(always)]
    pub(crate) fn limit(&self) -> usize {
        self.limit
    }

    /// Makes room for so many slots, at most 2^32 - 1.
    ///
    /// # Errors
    /// F7 if memory runs out; nothing else has changed.
    #[inline]
    pub(crate) fn grow<T: HasItem, const N: usize>(
        &mut self,
        alloc: Global,
        lists: &mut Lists<T, N>,
        wanted: usize,
    ) -> Result<()> {
        self.close_up(lists);
        // Only what is taken is written to the new row.
        let row = self.row.with_room(alloc, wanted)?;
        let limit = row.capacity().min(MOST);
        let mut tree = MinTree::new(alloc, limit / BLOCK + 1)?;
        refresh_all(&mut tree, &row, row.len() / BLOCK + 1);
        self.row = row;
        self.limit = limit;
        self.tree = tree;
        Ok(())
    }

    /// Drops the empty slots. Takes no memory.
    #[inline]
    pub(crate) fn close_up<T: HasItem, const N: usize>(&mut self, lists: &mut Lists<T, N>) {
        let blocks = self.row.len() / BLOCK + 1;
        let taken = gather(&mut self.row, lists);
        self.row.truncate(taken);
        refresh_all(&mut self.tree, &self.row, blocks);
    }

    /// Appends a place that has no slot, with its date, and returns the number of its slot, or `None` if there is no
    /// room. Takes no memory.
    #[inline(always)]
    pub(crate) fn push(&mut self, place: Place, date: u64) -> Option<usize> {
        let index = self.row.len();
        if index >= self.limit || place.number() >= PLACES as usize {
            return None;
        }
        self.row.push_reserved(place, date);
        lower(&mut self.tree, index / BLOCK, date);
        Some(index)
    }

    /// Empties the slot of a place, which must have one. Takes no memory.
    #[inline(always)]
    pub(crate) fn take_out(&mut self, place: Place, gone: Gone) {
        let index = find(&self.row, place, gone.slot);
        self.row.empty(index);
        raise(&mut self.tree, &self.row, index / BLOCK, gone);
    }

    /// Returns whether no date is due, as far as that is known without looking at them.
    #[inline(always)]
    pub(crate) fn are_behind(&self, now: u64) -> bool {
        self.tree.least() > now
    }

    /// Returns the first place whose date is due at `now`.
    #[inline]
    pub(crate) fn first(&self, now: u64) -> Option<Place> {
        let block = self.tree.first(now)?;
        let start = block.saturating_mul(BLOCK);
        let end = start.saturating_add(BLOCK);
        let found = first_between(&self.row, start, end, now);
        if found.is_some() {
            return found;
        }
        // It is the marked one.
        let block = self.tree.first_after(block, now)?;
        let start = block.saturating_mul(BLOCK);
        first_between(&self.row, start, self.row.len(), now)
    }
}
