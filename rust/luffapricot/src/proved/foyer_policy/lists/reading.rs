//! Reading lists.

// Written by rust/erase/erase.py from crates/foyer_policy/src/lists/reading.rt: change that.
#[allow(unused_imports)]
use crate::rattle_std::prelude::*;
use crate::proved::foyer_policy::lists::{Lists, Place};

impl<T, const N: usize> Lists<T, N> {
    /// Returns the place of a list's first value, or `None` if it is empty. `list` is below `N`.
    #[inline(always)]
    pub fn front(&self, list: usize) -> Option<Place> {
        let node = self.heads[list].place()?;
        Some(Place { node })
    }

    /// Returns the place of the next value in the same list, or `None` at its end. The place must have a value.
    #[inline(always)]
    pub fn next(&self, place: Place) -> Option<Place> {
        let node = self.nodes.links(place.node).after.place()?;
        Some(Place { node })
    }

    /// Returns the number of the list that has the value at a place. The place must have a value.
    #[inline(always)]
    pub fn list_of(&self, place: Place) -> usize {
        self.nodes.links(place.node).list
    }

    /// Returns whether a place has a value.
    #[inline(always)]
    pub(crate) fn holds(&self, place: Place) -> bool {
        self.nodes.has_value(place.node)
    }

    /// Returns the value at a place. The place must have a value.
    #[inline(always)]
    pub fn get(&self, place: Place) -> &T {
        self.nodes.get(place.node)
    }

    /// Returns the number of nodes, with values or free. Each place is below it.
    #[inline(always)]
    pub fn span(&self) -> usize {
        let Lists { nodes, .. } = self;
        nodes.len
    }
}
