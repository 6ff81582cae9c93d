//! Nodes in one block, each with links and a value, or free.

// Written by rust/erase/erase.py from crates/foyer_policy/src/lists/arena.rt: change that.
#[allow(unused_imports)]
use crate::rattle_std::prelude::*;
use crate::proved::foyer_policy::link::Link;
use crate::proved::foyer_policy::lists::block::{Base, Deed, Node, Nodes, allocate, deallocate};
use crate::proved::foyer_policy::lists::free::{put_free, take_free};
use crate::rattle_std::alloc::{AllocError, Global};
use crate::rattle_std::mem;
use crate::rattle_std::std_alloc::room::may_hold;

/// The number of a node's list, and where the list goes on at both sides. The free nodes are a list too, whose number
/// no list of values has.
#[derive(Clone, Copy)]
pub(crate) struct Links {
    pub(crate) list: usize,
    pub(crate) before: Link,
    pub(crate) after: Link,
}

/// A block of nodes, each in one of `N` lists with a value, or free. A node keeps its number when the block grows.
pub(crate) struct Arena<T, const N: usize> {
    pub(crate) base: Base<Links, T>,
    pub(crate) len: usize,
    pub(crate) used: usize,
    free: Link,
    pub(crate) nodes: Nodes<Links, T>,
    deed: Deed<Links, T, Global>,
    alloc: Global,
}

impl<T, const N: usize> Arena<T, N> {
    /// Creates an arena with no nodes. Takes no memory.
    #[inline]
    pub(crate) fn new(alloc: Global) -> Self {
        match allocate(&alloc, 0) {
            Ok((base, nodes, deed)) => Arena { base, len: 0, used: 0, free: Link::end(), nodes, deed, alloc },
            Err(_) => crate::rattle_std::macros::unreachable!(),
        }
    }

    /// Returns the first free node.
    #[inline(always)]
    pub(crate) fn first_free(&self) -> usize {
        let Some(place) = self.free.place() else { crate::rattle_std::macros::unreachable!() };
        place
    }

    /// Puts a value with its links into a free node.
    #[inline(always)]
    pub(crate) fn insert_at(&mut self, place: usize, links: Links, value: T) {
        self.free = take_free(&mut self.nodes, self.base, place, self.free);
        self.nodes.set_links(self.base, place, links);
        self.nodes.write(self.base, place, value);
        self.used += 1;
    }

    /// Removes the value of a node, which is the first free one then.
    #[inline(always)]
    pub(crate) fn remove(&mut self, place: usize) -> T {
        let value = self.nodes.read(self.base, place);
        put_free::<T, N>(&mut self.nodes, self.base, place, self.free);
        self.free = Link::to(place);
        self.used -= 1;
        value
    }

    /// Returns the links of a node that has a value.
    #[inline(always)]
    pub(crate) fn links(&self, place: usize) -> Links {
        *self.nodes.links(self.base, place)
    }

    /// Writes the links of a node that has a value.
    #[inline(always)]
    pub(crate) fn set_links(&mut self, place: usize, links: Links) {
        self.nodes.set_links(self.base, place, links);
    }

    /// Returns the value of a node that has one.
    #[inline(always)]
    pub(crate) fn get(&self, place: usize) -> &T {
        self.nodes.get(self.base, place)
    }

    /// Returns whether a node has a value.
    #[inline(always)]
    pub(crate) fn has_value(&self, place: usize) -> bool {
        place < self.len && self.nodes.links(self.base, place).list < N
    }

    /// Makes room for `more` values beside those in the arena. If memory runs out, nothing has changed.
    #[inline]
    pub(crate) fn reserve(&mut self, more: usize) -> Result<(), AllocError> {
        let Some(wanted) = self.used.checked_add(more) else {
            return Err(AllocError);
        };
        self.reserve_to(wanted)
    }

    /// Makes nodes until there are so many. If memory runs out, nothing has changed.
    #[inline]
    pub(crate) fn reserve_to(&mut self, wanted: usize) -> Result<(), AllocError> {
        if wanted <= self.len {
            return Ok(());
        }
        self.grow(wanted.max(2 * self.len).max(4))
    }

    // Moves all nodes to a block of `len`, in which each keeps its number. The free ones are linked by rising
    // numbers.
    #[inline]
    fn grow(&mut self, len: usize) -> Result<(), AllocError> {
        if !may_hold::<Node<Links, T>>(len) {
            return Err(AllocError);
        }
        let (base, mut nodes, deed) = allocate(&self.alloc, len)?;
        let free = hand_over_all::<T, N>(&mut self.nodes, self.base, self.len, &mut nodes, base, len);
        let old_nodes = mem::replace(&mut self.nodes, nodes);
        let old_deed = mem::replace(&mut self.deed, deed);
        deallocate(&self.alloc, self.base, self.len, old_nodes, old_deed);
        self.base = base;
        self.len = len;
        self.free = free;
        Ok(())
    }

    /// Frees the block, in which no node has a value.
    #[inline]
    pub(crate) fn destroy_empty(self) {
        let Arena { base, len, used: _, free: _, nodes, deed, alloc } = self;
        deallocate(&alloc, base, len, nodes, deed);
    }
}

// Moves the nodes of a block to a larger one, and returns the first free one there.
#[inline]
fn hand_over_all<T, const N: usize>(
    from: &mut Nodes<Links, T>,
    from_base: Base<Links, T>,
    from_len: usize,
    to: &mut Nodes<Links, T>,
    base: Base<Links, T>,
    len: usize,
) -> Link {
    let mut free = Link::end();
    let mut place = len;
    while place > 0 {
        place -= 1;
        free = hand_over::<T, N>(from, from_base, from_len, to, base, place, free);
    }
    free
}

// Moves a node with its links and its value to the same number of another block. If it has no value, it is free
// there, before `free`. Returns the first free one then.
#[inline(always)]
fn hand_over<T, const N: usize>(
    from: &mut Nodes<Links, T>,
    from_base: Base<Links, T>,
    from_len: usize,
    to: &mut Nodes<Links, T>,
    base: Base<Links, T>,
    place: usize,
    free: Link,
) -> Link {
    if place < from_len {
        let links = *from.links(from_base, place);
        if links.list != N {
            to.set_links(base, place, links);
            let value = from.read(from_base, place);
            to.write(base, place, value);
            return free;
        }
    }
    put_free::<T, N>(to, base, place, free);
    Link::to(place)
}
