//! Linked lists of values over one block of nodes.

// Written by rust/erase/erase.py from crates/foyer_policy/src/lists.rt: change that.
#[allow(unused_imports)]
use crate::rattle_std::prelude::*;
use crate::proved::foyer_policy::error::{Error, Reason, Result};
use crate::proved::foyer_policy::link::Link;
use crate::proved::foyer_policy::lists::arena::Arena;
use crate::proved::foyer_policy::lists::linking::{link_back, relink, take_out, unlink};
use crate::rattle_std::alloc::Global;

mod ahead;
pub(crate) mod arena;
pub(crate) mod block;
pub(crate) mod free;
pub(crate) mod linking;
mod place;
mod reading;

pub use place::Place;

/// `N` lists of values, numbered from 0, as doubly linked lists over one block of nodes.
///
/// Each value has a place, by which it is read, moved and removed in constant time. It keeps its place, also in
/// another list; once it is removed the place may be given again. The lists choose the place of a new value, or the
/// caller does. Only `reserve` and `reserve_to` take memory: a new value takes a reserved room, and gives it back
/// when it is removed. Each place is below the span, which only these two raise.
pub struct Lists<T, const N: usize> {
    nodes: ::std::mem::ManuallyDrop<Arena<T, N>>,
    heads: [Link; N],
    tails: [Link; N],
}

impl<T, const N: usize> Lists<T, N> {
    /// Creates empty lists with no room. Takes no memory.
    #[inline]
    pub fn new(alloc: Global) -> Self {
        Lists {
            nodes: ::std::mem::ManuallyDrop::new(Arena::new(alloc)),
            heads: [Link::end(); N],
            tails: [Link::end(); N],
        }
    }

    /// Makes room for `more` values beside those in the lists. Only this call and `reserve_to` take memory.
    ///
    /// # Errors
    /// F7 if the room is still less than `more`. The lists are as they were, and neither the room nor the span is
    /// less.
    #[inline(always)]
    pub fn reserve(&mut self, more: usize) -> Result<()> {
        match self.nodes.reserve(more) {
            Ok(()) => Ok(()),
            Err(_) => Err(Error::new(Reason::NoMemory)),
        }
    }

    /// Makes nodes until there are `wanted`, so that each number below it is a place.
    ///
    /// # Errors
    /// F7 if the span is still less than `wanted`. The lists are as they were, and neither the room nor the span is
    /// less.
    #[inline(always)]
    pub fn reserve_to(&mut self, wanted: usize) -> Result<()> {
        match self.nodes.reserve_to(wanted) {
            Ok(()) => Ok(()),
            Err(_) => Err(Error::new(Reason::NoMemory)),
        }
    }

    /// Returns the place that `push_back` would take: the one freed last, or else the least that was never taken.
    /// Needs reserved room.
    #[inline(always)]
    pub fn next_place(&self) -> Place {
        let Lists { nodes, .. } = self;
        Place { node: nodes.first_free() }
    }

    /// Appends a value to a list at a free place below the span, which the caller chooses. `list` is below `N`.
    #[inline(always)]
    pub fn push_back_at(&mut self, list: usize, place: Place, value: T) {
        link_back(&mut self.nodes, &mut self.heads, &mut self.tails, list, place.node, value);
    }

    /// Appends a value to a list, and returns its place. `list` is below `N`. Needs reserved room.
    #[inline(always)]
    pub fn push_back(&mut self, list: usize, value: T) -> Place {
        let place = self.next_place();
        self.push_back_at(list, place, value);
        place
    }

    /// Removes the first value of a list, if there is one, and gives its room back. `list` is below `N`.
    #[inline(always)]
    pub fn pop_front(&mut self, list: usize) -> Option<T> {
        let (_, value) = self.pop_front_at(list)?;
        Some(value)
    }

    /// Removes the first value of a list, if there is one, and returns it with its place. `list` is below `N`.
    #[inline(always)]
    pub fn pop_front_at(&mut self, list: usize) -> Option<(Place, T)> {
        match self.heads[list].place() {
            Some(node) => {
                let value = take_out(&mut self.nodes, &mut self.heads, &mut self.tails, node);
                Some((Place { node }, value))
            }
            None => None,
        }
    }

    /// Removes the value at a place, and gives its room back. The place must have a value.
    #[inline(always)]
    pub fn remove(&mut self, place: Place) -> T {
        take_out(&mut self.nodes, &mut self.heads, &mut self.tails, place.node)
    }

    /// Moves the value at a place to the end of a list, which may be its own. It keeps its place. The place must have
    /// a value, and `list` is below `N`.
    #[inline(always)]
    pub fn move_back(&mut self, place: Place, list: usize) {
        unlink(&mut self.nodes, &mut self.heads, &mut self.tails, place.node);
        relink(&mut self.nodes, &mut self.heads, &mut self.tails, list, place.node);
    }

    /// Returns the value at a place for writing. The place must have a value.
    #[inline(always)]
    pub fn get_mut(&mut self, place: Place) -> &mut T {
        let base = self.nodes.base;
        self.nodes.nodes.get_mut(base, place.node)
    }

    /// Returns the number of lists.
    #[inline(always)]
    pub(crate) fn count(&self) -> usize {
        let heads: &[Link] = &self.heads;
        heads.len()
    }

    // Removes the values of a list, and drops them.
    #[inline]
    fn clear(&mut self, list: usize) {
        while self.pop_front(list).is_some() {}
    }
}

/// Drops each value, list by list, and frees the block.
impl<T, const N: usize> Drop for Lists<T, N> {
    #[inline]
    fn drop(&mut self) {
        for list in 0..self.count() {
            self.clear(list);
        }
        let Lists { nodes, heads: _, tails: _ } = self;
        let nodes = unsafe { ::std::mem::ManuallyDrop::take(nodes) };
        nodes.destroy_empty();
    }
}
