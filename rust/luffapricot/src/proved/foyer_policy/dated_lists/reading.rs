//! Reading lists of items, and finding the first that is due.

// Written by rust/erase/erase.py from crates/foyer_policy/src/dated_lists/reading.rt: change that.
#[allow(unused_imports)]
use crate::rattle_std::prelude::*;
use super::DatedLists;
use super::tracking::Tracking;
use crate::proved::foyer_policy::due::{due_at, first_of_list};
use crate::proved::foyer_policy::lists::Place;
use crate::proved::foyer_policy::queued::HasItem;

impl<T: HasItem, const N: usize> DatedLists<T, N> {
    /// Returns the place of a list's first value, or `None` if it is empty. `list` is below `N`.
    #[inline(always)]
    pub(crate) fn front(&self, list: usize) -> Option<Place> {
        self.lists.front(list)
    }

    /// Returns the place of the next value in the same list, or `None` at its end. The place must have a value.
    #[inline(always)]
    pub(crate) fn next(&self, place: Place) -> Option<Place> {
        self.lists.next(place)
    }

    /// Returns the number of the list that has the value at a place. The place must have a value.
    #[inline(always)]
    pub(crate) fn list_of(&self, place: Place) -> usize {
        self.lists.list_of(place)
    }

    /// Returns the value at a place. The place must have a value.
    #[inline(always)]
    pub(crate) fn get(&self, place: Place) -> &T {
        self.lists.get(place)
    }

    /// Returns the number of nodes, with values or free. Each place is below it.
    #[inline(always)]
    pub(crate) fn span(&self) -> usize {
        self.lists.span()
    }

    /// Reads the neighbors of the value at a place, which `move_back` and `remove` will write, and returns true. The
    /// place must have a value.
    #[inline(always)]
    pub(crate) fn has_neighbors(&self, place: Place) -> bool {
        self.lists.has_neighbors(place)
    }

    /// Returns the places of the first two values of a list, if there are some. `list` is below `N`.
    #[inline(always)]
    pub(crate) fn first_two(&self, list: usize) -> (Option<Place>, Option<Place>) {
        self.lists.first_two(list)
    }

    /// Returns whether no item expires, as far as that is known without looking at them.
    #[inline(always)]
    pub(crate) fn is_plain(&self) -> bool {
        matches!(self.dates, Tracking::Plain)
    }

    /// Returns the place of the first item of a list that is due at `now`, or `None`. `list` is below `N`.
    #[inline]
    pub(crate) fn first_due(&self, list: usize, now: u64) -> Option<Place> {
        match &self.dates {
            Tracking::Plain => None,
            Tracking::Untracked => first_of_list(&self.lists, list, now),
            Tracking::Tracked(dates) => {
                let front = self.lists.front(list)?;
                if list >= dates.lists() {
                    return first_of_list(&self.lists, list, now);
                }
                if dates.are_behind(list, now) {
                    return None;
                }
                // If all records live equally long, the front is often the first that is due.
                if due_at(self.lists.get(front).item(), now) {
                    return Some(front);
                }
                dates.first(list, now)
            }
        }
    }
}
