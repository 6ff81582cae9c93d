//! The first of many numbers that is at most another.

// Written by rust/erase/erase.py from crates/foyer_policy/src/min_tree.rt: change that.
#[allow(unused_imports)]
use crate::rattle_std::prelude::*;
use crate::proved::foyer_policy::error::{Error, Reason, Result};
use crate::rattle_std::alloc::Global;

/// Numbers under indices from 0, as the leaves of a segment tree, in which each node has the least number of its four
/// children. Changing a number, and finding the first one within a limit, take about as many steps as the tree is
/// high.
pub(crate) struct MinTree {
    // The root is node 1, and the children of node i are the four from 4 i - 2 on. Node 0 isn't used, so that the
    // four share a line of the cache if memory begins 16 bytes behind a line's start, as large blocks mostly do.
    nodes: Vec<u64>,
    // The nodes from this one on are the leaves, three times its number less two of them, a power of four.
    first_leaf: usize,
    // An index that the owner marks; at first 0.
    marked: usize,
}

// The first leaf of the smallest tree that has so many leaves, or `None` for a huge number.
#[inline]
fn first_for(count: usize) -> Option<usize> {
    let mut first: usize = 1;
    while 3 * first - 2 < count {
        if first > usize::MAX / 16 {
            return None;
        }
        first = 4 * first - 2;
    }
    Some(first)
}

// The least number of four nodes in a row.
#[inline(always)]
fn least_number(nodes: &[u64], at: usize) -> u64 {
    let left = nodes[at].min(nodes[at + 1]);
    let right = nodes[at + 2].min(nodes[at + 3]);
    left.min(right)
}

// The first of four nodes in a row whose number is at most a limit; one of them must be. It has no branches, since
// nobody can predict which one it is.
#[inline(always)]
fn first_of(nodes: &[u64], at: usize, limit: u64) -> usize {
    let one = nodes[at] > limit;
    let two = one & (nodes[at + 1] > limit);
    let three = two & (nodes[at + 2] > limit);
    at + usize::from(one) + usize::from(two) + usize::from(three)
}

// The first of some nodes in a row whose number is at most a limit.
#[inline(always)]
fn first_in(nodes: &[u64], start: usize, end: usize, limit: u64) -> Option<usize> {
    for node in start..end {
        if nodes[node] <= limit {
            return Some(node);
        }
    }
    None
}

// The index of the first number below a node that is at most a limit, which the node's number must be.
#[inline]
fn first_below(nodes: &[u64], first_leaf: usize, top: usize, limit: u64) -> usize {
    let mut node = top;
    // Some leaf below the node is within the limit, and none before those is.
    while node < first_leaf {
        node = first_of(nodes, 4 * node - 2, limit);
    }
    node - first_leaf
}

impl MinTree {
    /// Creates at least so many numbers, each the largest.
    ///
    /// # Errors
    /// F7 if memory runs out.
    #[inline]
    pub(crate) fn new(alloc: Global, count: usize) -> Result<Self> {
        let Some(first) = first_for(count) else {
            return Err(Error::new(Reason::NoMemory));
        };
        let Ok(nodes) = Vec::from_elem(alloc, u64::MAX, 4 * first - 2) else {
            return Err(Error::new(Reason::NoMemory));
        };
        Ok(MinTree { nodes, first_leaf: first, marked: 0 })
    }

    /// Returns the number at an index.
    #[inline]
    pub(crate) fn get(&self, index: usize) -> u64 {
        self.nodes[self.first_leaf + index]
    }

    /// Changes the number at an index.
    #[inline]
    pub(crate) fn set(&mut self, index: usize, number: u64) {
        let mut node = self.first_leaf + index;
        self.nodes[node] = number;
        while node > 1 {
            node = (node + 2) / 4;
            let least = least_number(&self.nodes, 4 * node - 2);
            // Above a node that keeps its number nothing changes.
            if self.nodes[node] == least {
                return;
            }
            self.nodes[node] = least;
        }
    }

    /// Returns the least number.
    #[inline(always)]
    pub(crate) fn least(&self) -> u64 {
        self.nodes[1]
    }

    /// Returns the index of the first number that is at most a limit, or `None`.
    #[inline]
    pub(crate) fn first(&self, limit: u64) -> Option<usize> {
        if self.nodes[1] > limit {
            return None;
        }
        Some(first_below(&self.nodes, self.first_leaf, 1, limit))
    }

    /// Returns the index of the first number after an index that is at most a limit, or `None`.
    #[inline]
    pub(crate) fn first_after(&self, index: usize, limit: u64) -> Option<usize> {
        // No leaf behind the index that is below the node is within the limit.
        let mut node = self.first_leaf + index;
        while node > 1 {
            let parent = (node + 2) / 4;
            if let Some(sibling) = first_in(&self.nodes, node + 1, 4 * parent + 2, limit) {
                return Some(first_below(&self.nodes, self.first_leaf, sibling, limit));
            }
            node = parent;
        }
        None
    }

    /// Returns the index that was marked last, or 0 if none was.
    #[inline]
    pub(crate) fn marked(&self) -> usize {
        self.marked
    }

    /// Marks an index. No number changes.
    #[inline]
    pub(crate) fn mark(&mut self, index: usize) {
        self.marked = index;
    }
}
