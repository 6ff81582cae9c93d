//! Links of chains and lists, in one word.

// Written by rust/erase/erase.py from crates/foyer_policy/src/link.rt: change that.
#[allow(unused_imports)]
use crate::rattle_std::prelude::*;
/// Where a chain goes on: at a place, or nowhere. It takes one word; an `Option<usize>` takes two.
#[derive(Clone, Copy)]
pub struct Link {
    // the largest number for nowhere
    place: usize,
}

impl Link {
    /// Returns the end of a chain.
    #[inline(always)]
    pub fn end() -> Self {
        Link { place: usize::MAX }
    }

    /// Returns a link to a place, which is below the largest number.
    #[inline(always)]
    pub fn to(place: usize) -> Self {
        Link { place }
    }

    /// Returns the place that it leads to, or `None` at the end.
    #[inline(always)]
    pub fn place(self) -> Option<usize> {
        if self.place == usize::MAX { None } else { Some(self.place) }
    }
}
