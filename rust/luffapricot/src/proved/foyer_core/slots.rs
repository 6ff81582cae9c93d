//! Values in slots, which are numbered from 0.
//!
//! A slot keeps its number and its value until that is removed. Then the slot is free, and the next value gets it. A
//! new slot is made only if none is free.

// Written by rust/erase/erase.py from crates/foyer_core/src/slots.rt: change that.
#[allow(unused_imports)]
use crate::rattle_std::prelude::*;
mod iter;

use crate::proved::foyer_policy::Link;
pub use iter::Iter;
use crate::rattle_std::alloc::{AllocError, Global};

use crate::rattle_std::mem;

/// Values in slots. Only `reserve` takes memory: a new value takes a reserved room, and gives it back when it is
/// removed.
pub struct Slots<T> {
    cells: Vec<Cell<T>>,
    // the cell that was freed last, or the end
    free: Link,
    // how many cells are free
    vacant: usize,
}

/// Where a slot's value lies. A free cell leads to the one freed before it.
enum Cell<T> {
    Free(Link),
    Taken(T),
}

impl<T> Cell<T> {
    // The value for writing. There must be one.
    #[inline(always)]
    fn value_mut(&mut self) -> &mut T {
        match self {
            Cell::Taken(value) => value,
            Cell::Free(_) => crate::rattle_std::macros::unreachable!(),
        }
    }
}

impl<T> Slots<T> {
    /// Creates slots with no value and no room. Takes no memory.
    #[inline]
    pub fn new(alloc: Global) -> Self {
        Slots { cells: Vec::new(alloc), free: Link::end(), vacant: 0 }
    }

    /// Makes room for one more value. If memory runs out, nothing has changed.
    #[inline(always)]
    pub fn reserve(&mut self) -> Result<(), AllocError> {
        if self.vacant > 0 || self.cells.len() < self.cells.capacity() {
            return Ok(());
        }
        self.cells.reserve(1)
    }

    /// Returns how many slots have a value.
    #[inline(always)]
    pub fn len(&self) -> usize {
        self.cells.len() - self.vacant
    }

    /// Returns the number of slots, with a value or free. A new slot gets this number.
    #[inline(always)]
    pub fn count(&self) -> usize {
        self.cells.len()
    }

    /// Returns the slot that the next value gets.
    #[inline(always)]
    pub fn next_slot(&self) -> usize {
        match self.free.place() {
            Some(slot) => slot,
            None => self.cells.len(),
        }
    }

    /// Puts a value into the next slot, and returns the slot. Needs room.
    #[inline(always)]
    pub fn insert(&mut self, value: T) -> usize {
        let Some(slot) = self.free.place() else {
            let slot = self.cells.len();
            self.cells.push_reserved(Cell::Taken(value));
            return slot;
        };
        self.vacant -= 1;
        match mem::replace(&mut self.cells[slot], Cell::Taken(value)) {
            Cell::Free(next) => self.free = next,
            Cell::Taken(_) => crate::rattle_std::macros::unreachable!(),
        }
        slot
    }

    /// Removes the value of a slot, which must have one, and gives its room back. The next value gets this slot.
    #[inline(always)]
    pub fn remove(&mut self, slot: usize) -> T {
        let free = Cell::Free(self.free);
        match mem::replace(&mut self.cells[slot], free) {
            Cell::Taken(value) => {
                self.free = Link::to(slot);
                self.vacant += 1;
                value
            }
            Cell::Free(_) => crate::rattle_std::macros::unreachable!(),
        }
    }

    /// Returns the value in a slot, if it has one.
    #[inline(always)]
    pub fn get(&self, slot: usize) -> Option<&T> {
        match self.cells.get(slot) {
            Some(Cell::Taken(value)) => Some(value),
            _ => None,
        }
    }

    /// Returns the value in a slot for writing, if it has one.
    #[inline(always)]
    pub fn get_mut(&mut self, slot: usize) -> Option<&mut T> {
        if self.contains(slot) { Some(self.value_mut(slot)) } else { None }
    }

    // The value in a slot for writing. There must be one.
    #[inline(always)]
    fn value_mut(&mut self, slot: usize) -> &mut T {
        self.cells[slot].value_mut()
    }

    // Whether a slot has a value.
    #[inline(always)]
    fn contains(&self, slot: usize) -> bool {
        matches!(self.cells.get(slot), Some(Cell::Taken(_)))
    }

    /// Returns the slots that have a value, with it, by rising number.
    #[inline]
    pub fn iter(&self) -> Iter<'_, T> {
        Iter::new(&self.cells)
    }
}
