//! A walk over slots, by rising number.

// Written by rust/erase/erase.py from crates/foyer_core/src/slots/iter.rt: change that.
#[allow(unused_imports)]
use crate::rattle_std::prelude::*;
use super::Cell;

/// An iterator over the slots that have a value, with it.
pub struct Iter<'a, T> {
    cells: &'a [Cell<T>],
    // the slot of the first of the cells
    slot: usize,
}

impl<'a, T> Iter<'a, T> {
    // All the slots of these cells.
    #[inline]
    pub(crate) fn new(cells: &'a [Cell<T>]) -> Self {
        Iter { cells, slot: 0 }
    }
}

impl<'a, T> Iterator for Iter<'a, T> {
    type Item = (usize, &'a T);

    #[inline]
    fn next(&mut self) -> Option<(usize, &'a T)> {
        while let Some((cell, rest)) = self.cells.split_first() {
            let slot = self.slot;
            self.cells = rest;
            self.slot += 1;
            if let Cell::Taken(value) = cell {
                return Some((slot, value));
            }
        }
        None
    }
}
