//! The shards of a core: how they are made, and which one has a hash.

// Written by rust/erase/erase.py from crates/foyer_core/src/cache_core/shards.rt: change that.
#[allow(unused_imports)]
use crate::rattle_std::prelude::*;
use super::CacheCore;
use crate::proved::foyer_core::config::RawCacheConfig;
use crate::proved::foyer_core::filter::Filter;
use crate::proved::foyer_core::finder::Finder;
use crate::proved::foyer_core::shard::Shard;
use crate::proved::foyer_core::weighter::Weighter;
use crate::proved::foyer_policy::{Eviction, HashBuilder, Key, Properties, Result, Value};
use crate::rattle_std::alloc::Global;

/// Returns the part of a capacity that the shard of this number gets: one n-th, rounded down, and one more if its
/// number is below what is left over.
#[inline]
pub fn shard_capacity(capacity: usize, shards: usize, number: usize) -> usize {
    capacity / shards + (number < capacity % shards) as usize
}

// A hash modulo the number of shards: a mask if that is a power of two, which spares a division.
#[inline(always)]
fn part_of(hash: u64, shards: u64) -> u64 {
    if shards.is_power_of_two() { hash & (shards - 1) } else { hash % shards }
}

/// Returns the number of the shard of a hash: the hash modulo the number of shards.
#[inline(always)]
pub fn shard_of(hash: u64, shards: usize) -> usize {
    part_of(hash, shards as u64) as usize
}

impl<
    E: Eviction,
    K: Key,
    V: Value,
    P: Properties,
    S: HashBuilder,
    W: Weighter<K, V>,
    A: Filter<K, V>,
    N,
    R,
    I: Finder<K>,
> CacheCore<E, K, V, P, S, W, A, N, R, I>
{
    /// Creates the empty shards of a configuration, each over an empty index, for a cache that keeps each behind a
    /// lock.
    ///
    /// # Errors
    /// Those of `new`.
    #[inline]
    pub fn new_shards(
        alloc: Global,
        config: &RawCacheConfig<E::Config, S, W, A>,
    ) -> Result<Vec<Shard<E, K, V, P, N, R, I>>> {
        let mut shards = Vec::new(alloc);
        for number in 0..config.shards {
            let shard = Shard::new(
                alloc,
                config.number,
                shard_capacity(config.capacity, config.shards, number),
                config.limits,
                &config.eviction_config,
                I::empty(alloc),
            )?;
            // Room for all is asked for at once, and after the configuration's fault.
            shards.reserve(config.shards - number)?;
            shards.push_reserved(shard);
        }
        Ok(shards)
    }

    // The shard of a hash, by its number.
    #[inline(always)]
    pub(crate) fn shard_index(&self, hash: u64) -> usize {
        shard_of(hash, self.shards.len())
    }
}
