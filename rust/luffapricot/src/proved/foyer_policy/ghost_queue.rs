//! The ghost queue, which remembers the hashes of records that left lately.

// Written by rust/erase/erase.py from crates/foyer_policy/src/ghost_queue.rt: change that.
#[allow(unused_imports)]
use crate::rattle_std::prelude::*;
use crate::proved::foyer_policy::error::{Error, Reason, Result};
use crate::rattle_std::alloc::Global;
use crate::rattle_std::collections::{HashSet, VecDeque};

/// Records that left lately, oldest first, as pairs of a hash and a weight, with the set of remembered hashes.
///
/// The pairs weigh at most the capacity, or a single pair weighs more, perhaps with some of weight 0. After an update
/// to capacity 0 all pairs stay, whatever they weigh. A pair that leaves takes its hash out of the set, even if a
/// younger pair has the same hash.
pub struct GhostQueue {
    pairs: VecDeque<(u64, usize)>,
    hashes: HashSet<u64>,
    capacity: usize,
    weight: usize,
}

// Drops pairs from the front until the rest weighs at most this, and returns what the rest weighs.
#[inline]
fn shrink(pairs: &mut VecDeque<(u64, usize)>, hashes: &mut HashSet<u64>, weight: usize, most: usize) -> usize {
    let mut left = weight;
    while left > most {
        let Some((hash, weight)) = pairs.pop_front() else {
            return 0;
        };
        left -= weight;
        hashes.remove(&hash);
    }
    left
}

/// The law that no pair is dropped without need: an update and a push keep the longest tail of the pairs that fits
/// the weight left to them.
///
/// The function does nothing; the law is its contract.
#[inline]
pub fn longest_tails_are_kept() {}

impl GhostQueue {
    /// Creates an empty queue. Takes no memory.
    #[inline]
    pub fn new(alloc: Global, capacity: usize) -> Self {
        GhostQueue { pairs: VecDeque::new(alloc), hashes: HashSet::new(alloc), capacity, weight: 0 }
    }

    /// Sets the capacity, and drops pairs from the front while they weigh more. With capacity 0 none is dropped.
    /// Takes no memory.
    #[inline]
    pub fn update(&mut self, capacity: usize) {
        self.capacity = capacity;
        if capacity > 0 {
            self.weight = shrink(&mut self.pairs, &mut self.hashes, self.weight, capacity);
        }
    }

    /// Makes room for so many pushes.
    ///
    /// # Errors
    /// F7 if memory runs out; nothing else has changed.
    #[inline]
    pub fn reserve(&mut self, more: usize) -> Result<()> {
        let Ok(()) = self.pairs.reserve(more) else {
            return Err(Error::new(Reason::NoMemory));
        };
        let Ok(()) = self.hashes.reserve(more) else {
            return Err(Error::new(Reason::NoMemory));
        };
        Ok(())
    }

    /// Remembers a hash with its weight, as `push` does. Needs room, and takes no memory.
    #[inline]
    pub fn push_reserved(&mut self, hash: u64, weight: usize) {
        if self.capacity == 0 {
            return;
        }
        let most = self.capacity.saturating_sub(weight);
        let left = shrink(&mut self.pairs, &mut self.hashes, self.weight, most);
        self.pairs.push_back_reserved((hash, weight));
        self.weight = left + weight;
        let _ = self.hashes.insert(hash);
    }

    /// Remembers a hash with its weight.
    ///
    /// Pairs are dropped from the front first, while the others would weigh more than the capacity with the new one,
    /// and weigh something. With capacity 0 nothing changes.
    ///
    /// # Errors
    /// F7 if memory runs out; nothing has changed. Never with capacity 0.
    #[inline]
    pub fn push(&mut self, hash: u64, weight: usize) -> Result<()> {
        if self.capacity == 0 {
            return Ok(());
        }
        self.reserve(1)?;
        self.push_reserved(hash, weight);
        Ok(())
    }

    /// Returns whether a hash is remembered.
    #[inline]
    pub fn contains(&self, hash: u64) -> bool {
        self.hashes.contains(&hash)
    }

    /// Returns the sum of the weights of the pairs.
    #[inline]
    pub fn weight(&self) -> usize {
        self.weight
    }

    /// Returns the capacity.
    #[inline]
    pub fn capacity(&self) -> usize {
        self.capacity
    }
}
