//! Reads ahead of a change: of values that may be removed next, and of neighbors.

// Written by rust/erase/erase.py from crates/foyer_policy/src/lists/ahead.rt: change that.
#[allow(unused_imports)]
use crate::rattle_std::prelude::*;
use crate::proved::foyer_policy::lists::linking::has_neighbors;
use crate::proved::foyer_policy::lists::{Lists, Place};

impl<T, const N: usize> Lists<T, N> {
    /// Reads the neighbors of the value at a place, which `move_back` and `remove` will write, and returns true. The
    /// place must have a value.
    #[inline(always)]
    pub fn has_neighbors(&self, place: Place) -> bool {
        let Lists { nodes, heads, tails } = self;
        has_neighbors(nodes, heads, tails, place.node)
    }

    /// Returns the places of the first two values of a list, if there are some. `list` is below `N`.
    #[inline(always)]
    pub fn first_two(&self, list: usize) -> (Option<Place>, Option<Place>) {
        match self.front(list) {
            Some(first) => (Some(first), self.next(first)),
            None => (None, None),
        }
    }
}
