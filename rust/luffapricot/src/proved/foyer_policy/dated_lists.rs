//! Linked lists of items, with the dates of those that expire.

// Written by rust/erase/erase.py from crates/foyer_policy/src/dated_lists.rt: change that.
#[allow(unused_imports)]
use crate::rattle_std::prelude::*;
mod building;
mod following;
pub(crate) mod noting;
mod reading;
mod states;
mod tracking;

use crate::proved::foyer_policy::error::Result;
use crate::proved::foyer_policy::lists::{Lists, Place};
use crate::proved::foyer_policy::queued::HasItem;
use following::{follow_move, follow_pop, follow_push, follow_remove, follow_reserve};
use crate::rattle_std::alloc::Global;

use tracking::Tracking;

/// `N` lists of items, numbered from 0, as [`Lists`] are. The first item of a list that is due is found in steps that
/// grow with the logarithm of how many items expire, and at once if none does.
///
/// Dates are kept from the first `reserve` or `reserve_to` after an item that expires was inserted. Until then, while
/// memory for them is refused, and beyond 2^32 - 1 nodes, a search walks along the list. A value keeps its item.
pub(crate) struct DatedLists<T: HasItem, const N: usize> {
    lists: Lists<T, N>,
    dates: Tracking,
    // How many of the lists, the first ones, are searched for what is due.
    searched: u8,
    alloc: Global,
}

impl<T: HasItem, const N: usize> DatedLists<T, N> {
    /// Creates empty lists with no room. Takes no memory. `first_due` is quick in the first `searched` of them; of
    /// the others no dates are kept.
    #[inline]
    pub(crate) fn new(alloc: Global, searched: u8) -> Self {
        DatedLists { lists: Lists::new(alloc), dates: Tracking::Plain, searched, alloc }
    }

    /// Makes room for `more` values beside those in the lists, and for one date if there is memory for that.
    ///
    /// # Errors
    /// F7 if the room is still less than `more`. The lists are as they were, and neither the room nor the span is
    /// less.
    #[inline(always)]
    pub(crate) fn reserve(&mut self, more: usize) -> Result<()> {
        let reserved = self.lists.reserve(more);
        follow_reserve(&mut self.dates, &mut self.lists, self.searched, self.alloc);
        reserved
    }

    /// Makes nodes until there are `wanted`, so that each number below it is a place, and room for one date if there is
    /// memory for that.
    ///
    /// # Errors
    /// F7 if the span is still less than `wanted`. The lists are as they were, and neither the room nor the span is
    /// less.
    #[inline(always)]
    pub(crate) fn reserve_to(&mut self, wanted: usize) -> Result<()> {
        let reserved = self.lists.reserve_to(wanted);
        follow_reserve(&mut self.dates, &mut self.lists, self.searched, self.alloc);
        reserved
    }

    /// Returns the place that `Lists::next_place` returns. Needs reserved room.
    #[inline(always)]
    pub(crate) fn next_place(&self) -> Place {
        self.lists.next_place()
    }

    /// Appends a value to a list at a free place below the span, which the caller chooses. `list` is below `N`.
    #[inline(always)]
    pub(crate) fn push_back_at(&mut self, list: usize, place: Place, mut value: T) {
        follow_push(&mut self.dates, &mut self.lists, list, place, &mut value);
        self.lists.push_back_at(list, place, value);
    }

    /// Removes the first value of a list, if there is one, and gives its room back. `list` is below `N`.
    #[inline(always)]
    pub(crate) fn pop_front(&mut self, list: usize) -> Option<T> {
        follow_pop(&mut self.dates, &self.lists, list);
        self.lists.pop_front(list)
    }

    /// Removes the first value of a list, if there is one, and returns it with its place. `list` is below `N`.
    #[inline(always)]
    pub(crate) fn pop_front_at(&mut self, list: usize) -> Option<(Place, T)> {
        follow_pop(&mut self.dates, &self.lists, list);
        self.lists.pop_front_at(list)
    }

    /// Removes the value at a place, and gives its room back. The place must have a value.
    #[inline(always)]
    pub(crate) fn remove(&mut self, place: Place) -> T {
        follow_remove(&mut self.dates, &self.lists, place);
        self.lists.remove(place)
    }

    /// Moves the value at a place to the end of a list, which may be its own. It keeps its place. The place must have
    /// a value, and `list` is below `N`.
    #[inline(always)]
    pub(crate) fn move_back(&mut self, place: Place, list: usize) {
        follow_move(&mut self.dates, &mut self.lists, place, list);
        self.lists.move_back(place, list);
    }
}
