//! What a core does with all of its records.

// Written by rust/erase/erase.py from crates/foyer_core/src/cache_core/bulk.rt: change that.
#[allow(unused_imports)]
use crate::rattle_std::prelude::*;
use super::CacheCore;
use super::in_turn::{
    clear_each, configure_each, evict_each, evict_each_if, evict_each_to_capacity, share_out, taken_by_each,
};
use super::load::Load;
use crate::proved::foyer_core::entry::Leave;
use crate::proved::foyer_core::filter::Filter;
use crate::proved::foyer_core::finder::Finder;
use crate::proved::foyer_core::outcome::Refused;
use crate::proved::foyer_core::weighter::Weighter;
use crate::proved::foyer_policy::{Error, Eviction, HashBuilder, Key, Properties, Reason, Result, Value};

impl<
    E: Eviction,
    K: Key,
    V: Value,
    P: Properties,
    S: HashBuilder,
    W: Weighter<K, V>,
    A: Filter<K, V>,
    N,
    R,
    I: Finder<K>,
> CacheCore<E, K, V, P, S, W, A, N, R, I>
{
    /// Evicts all records that aren't pinned, shard by shard: those expired at `now` first, then in the policy's
    /// order. Returns what left.
    ///
    /// If nothing is pinned, the core is empty afterwards.
    ///
    /// # Errors
    /// F7 if memory runs out; the evictions made so far stand and are returned.
    #[inline]
    pub fn evict_all(&mut self, now: u64) -> crate::rattle_std::result::Result<Vec<Leave<K, V, P>>, Refused<K, V, P>> {
        let mut leaves = Vec::new(self.alloc);
        let done = evict_each(&mut self.shards, now, &mut leaves);
        self.load = Load::of_all(&self.shards);
        match done {
            Ok(()) => Ok(leaves),
            Err(error) => Err(Refused { error, leaves }),
        }
    }

    /// Sets the capacity, divides it among the shards as `new` does, and evicts what no longer fits, shard by shard,
    /// records expired at `now` first. Returns what left.
    ///
    /// # Errors
    /// F7 if memory runs out; the capacity is set all the same, and the evictions made so far stand and are returned.
    #[inline]
    pub fn resize(
        &mut self,
        now: u64,
        capacity: usize,
    ) -> crate::rattle_std::result::Result<Vec<Leave<K, V, P>>, Refused<K, V, P>> {
        self.capacity = capacity;
        share_out(&mut self.shards, capacity);
        let mut evicted = Vec::new(self.alloc);
        let done = evict_each_to_capacity(&mut self.shards, now, &mut evicted);
        self.load = Load::of_all(&self.shards);
        match done {
            Ok(()) => Ok(evicted),
            Err(error) => Err(Refused { error, leaves: evicted }),
        }
    }

    /// Gives each shard's policy another configuration, which later calls of `resize` use too. No record leaves.
    ///
    /// Takes no memory.
    ///
    /// # Errors
    /// F17 if a shard's policy is another one, F2 to F6 for the configuration's first fault; nothing has changed.
    #[inline]
    pub fn reconfigure(&mut self, config: &E::Config) -> Result<()> {
        if !taken_by_each(&self.shards, config) {
            return Err(Error::new(Reason::WrongPolicy));
        }
        E::check(config)?;
        configure_each(&mut self.shards, config);
        Ok(())
    }

    /// Removes all records as `Clear`, shard by shard, in the policy's order, and returns them.
    ///
    /// # Errors
    /// F7 if memory runs out; nothing has changed.
    #[inline]
    pub fn clear(&mut self) -> Result<Vec<Leave<K, V, P>>> {
        let cleared = clear_each(&mut self.shards, self.alloc);
        self.load = Load::of_all(&self.shards);
        cleared
    }

    /// Evicts the records for which the predicate returns true, pinned or not, shard by shard, in the policy's order,
    /// and returns them. The predicate is called once for each record.
    ///
    /// # Errors
    /// F7 if memory runs out; nothing has changed.
    #[inline]
    pub fn flush_if<F: Fn(&K, &V) -> bool>(&mut self, predicate: &F) -> Result<Vec<Leave<K, V, P>>> {
        let flushed = evict_each_if(&mut self.shards, self.alloc, predicate);
        self.load = Load::of_all(&self.shards);
        flushed
    }
}
