//! Calls on all records.

// Written by rust/erase/erase.py from crates/foyer_raw/src/counted/bulk.rt: change that.
#[allow(unused_imports)]
use crate::rattle_std::prelude::*;
use super::counts::count_leaves;
use super::{At, Capacity, CountedShard, FIRST};
use crate::proved::foyer_core::{Finder, Leave, Piece};
use crate::proved::foyer_policy::{Eviction, Key, Properties, Result, Value};
use crate::rattle_std::alloc::Global;

impl<E: Eviction, K: Key, V: Value, P: Properties, R, I: Finder<K>> CountedShard<E, K, V, P, R, I> {
    /// Returns the total weight of the resident records, expired ones included.
    #[inline]
    pub fn usage(&self) -> usize {
        self.shard.usage()
    }

    /// Returns the number of resident records, expired ones included.
    #[inline]
    pub fn entries(&self) -> u64 {
        self.shard.entries()
    }

    /// Removes all records, as `Clear`, and appends them.
    ///
    /// # Errors
    /// F7 if memory runs out; nothing has changed.
    #[inline]
    pub fn clear(&mut self, leaves: &mut Vec<Leave<K, V, P>>) -> Result<()> {
        let told = leaves.len();
        let done = self.shard.clear_onto(leaves);
        count_leaves(&mut self.stats, FIRST, &leaves[told..]);
        done
    }

    /// Evicts all records that aren't pinned, those expired at a time first, and appends them.
    ///
    /// # Errors
    /// F7 if memory runs out; the evictions made so far stand and are in the list.
    #[inline]
    pub fn evict_all(&mut self, now: At, leaves: &mut Vec<Leave<K, V, P>>) -> Result<()> {
        let told = leaves.len();
        let done = self.shard.evict_unpinned(now.0, leaves);
        count_leaves(&mut self.stats, now.0, &leaves[told..]);
        done
    }

    /// Sets the shard's part of a capacity. Nothing leaves, even if the usage is above it.
    #[inline]
    pub fn set_capacity(&mut self, part: Capacity) {
        self.shard.set_capacity(part.0);
    }

    /// Evicts until the usage is at most the shard's capacity or nothing more leaves, records expired at a time first, and
    /// appends what leaves.
    ///
    /// # Errors
    /// F7 if memory runs out; the evictions made so far stand and are in the list.
    #[inline]
    pub fn evict_to_capacity(&mut self, now: At, leaves: &mut Vec<Leave<K, V, P>>) -> Result<()> {
        let told = leaves.len();
        let done = self.shard.evict_to_capacity(now.0, leaves);
        count_leaves(&mut self.stats, now.0, &leaves[told..]);
        done
    }

    /// Returns whether a configuration is of the shard's policy.
    #[inline]
    pub fn takes(&self, config: &E::Config) -> bool {
        self.shard.takes(config)
    }

    /// Gives the policy another configuration, one that it accepts, if it takes it. The capacity stays, and nothing leaves.
    #[inline]
    pub fn configure(&mut self, config: &E::Config) {
        if self.shard.takes(config) {
            self.shard.configure(config);
        }
    }

    /// Evicts as `evict_all` does, once there is room for the pieces of all that leaves.
    ///
    /// # Errors
    /// F7 if memory runs out; the evictions made so far stand and are in the list.
    #[inline]
    pub fn flush(&mut self, now: At, leaves: &mut Vec<Leave<K, V, P>>, pieces: &mut Vec<Piece<K, V, P>>) -> Result<()> {
        let room = leaves.len().saturating_add(self.entries() as usize);
        pieces.reserve(room)?;
        self.evict_all(now, leaves)
    }

    /// Evicts the records for which the predicate returns true, pinned or not, in the policy's order, once there is room for
    /// the pieces of all that leaves, and appends them.
    ///
    /// # Errors
    /// F7 if memory runs out; nothing has changed.
    #[inline]
    pub fn flush_if<F: Fn(&K, &V) -> bool>(
        &mut self,
        alloc: Global,
        predicate: &F,
        leaves: &mut Vec<Leave<K, V, P>>,
        pieces: &mut Vec<Piece<K, V, P>>,
    ) -> Result<()> {
        let told = leaves.len();
        pieces.reserve(told.saturating_add(self.entries() as usize))?;
        let done = self.shard.evict_if(alloc, predicate, leaves);
        count_leaves(&mut self.stats, FIRST, &leaves[told..]);
        done
    }
}
