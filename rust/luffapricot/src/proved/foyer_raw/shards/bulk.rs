//! Calls on all shards, one after the other. Each locks a shard, makes one step of `CountedShard`, and unlocks.

// Written by rust/erase/erase.py from crates/foyer_raw/src/shards/bulk.rt: change that.
#[allow(unused_imports)]
use crate::rattle_std::prelude::*;
use super::Shards;
use crate::proved::foyer_raw::counted::{At, Capacity};
use crate::proved::foyer_core::{Finder, Leave, Piece, Stats};
use crate::proved::foyer_policy::{Eviction, Key, Properties, Result, Value};
use crate::rattle_std::sync::Wait;

impl<H, E, K, V, P, R, I> Shards<H, E, K, V, P, R, I>
where
    H: Wait,
    E: Eviction,
    K: Key,
    V: Value,
    P: Properties,
    I: Finder<K>,
{
    // The weight that the records may have together: that of the last resize, or else the first one.
    #[inline]
    pub(crate) fn capacity(&self) -> Capacity {
        *self.capacity.lock(&self.rt)
    }

    #[inline]
    pub(crate) fn usage(&self) -> u128 {
        let mut sum = 0u128;
        for shard in self.all.as_slice() {
            let usage = shard.lock(&self.rt).usage();
            sum = sum.saturating_add(usage as u128);
        }
        sum
    }

    #[inline]
    pub(crate) fn entries(&self) -> u128 {
        let mut sum = 0u128;
        for shard in self.all.as_slice() {
            let entries = shard.lock(&self.rt).entries();
            sum = sum.saturating_add(entries as u128);
        }
        sum
    }

    #[inline]
    pub(crate) fn stats(&self) -> Stats {
        let mut sum = Stats::default();
        for shard in self.all.as_slice() {
            sum.add(&shard.lock(&self.rt).stats());
        }
        sum
    }

    #[inline]
    pub(crate) fn reset_stats(&self) {
        for shard in self.all.as_slice() {
            shard.lock(&self.rt).reset_stats();
        }
    }

    #[inline]
    pub(crate) fn clear(&self, leaves: &mut Vec<Leave<K, V, P>>) -> Result<()> {
        for shard in self.all.as_slice() {
            shard.lock(&self.rt).clear(leaves)?;
        }
        Ok(())
    }

    #[inline]
    pub(crate) fn evict_all(&self, now: At, leaves: &mut Vec<Leave<K, V, P>>) -> Result<()> {
        for shard in self.all.as_slice() {
            shard.lock(&self.rt).evict_all(now, leaves)?;
        }
        Ok(())
    }

    // Gives each shard its part of a capacity, and then evicts what is over. Resizes take turns.
    #[inline]
    pub(crate) fn resize(&self, now: At, capacity: Capacity, leaves: &mut Vec<Leave<K, V, P>>) -> Result<()> {
        let mut resizing = self.capacity.lock(&self.rt);
        *resizing = capacity;
        let shards = self.all.as_slice();
        for (number, shard) in shards.iter().enumerate() {
            let part = capacity.part(shards.len(), number);
            shard.lock(&self.rt).set_capacity(part);
        }
        for shard in shards {
            shard.lock(&self.rt).evict_to_capacity(now, leaves)?;
        }
        drop(resizing);
        Ok(())
    }

    // Whether each shard's policy takes a configuration as one of its own.
    #[inline]
    pub(crate) fn all_take(&self, config: &E::Config) -> bool {
        for shard in self.all.as_slice() {
            let is_taken = shard.lock(&self.rt).takes(config);
            if !is_taken {
                return false;
            }
        }
        true
    }

    // Takes turns with resizes.
    #[inline]
    pub(crate) fn configure(&self, config: &E::Config) {
        let resizing = self.capacity.lock(&self.rt);
        for shard in self.all.as_slice() {
            shard.lock(&self.rt).configure(config);
        }
        drop(resizing);
    }

    #[inline]
    pub(crate) fn flush(
        &self,
        now: At,
        leaves: &mut Vec<Leave<K, V, P>>,
        pieces: &mut Vec<Piece<K, V, P>>,
    ) -> Result<()> {
        for shard in self.all.as_slice() {
            shard.lock(&self.rt).flush(now, leaves, pieces)?;
        }
        Ok(())
    }

    #[inline]
    pub(crate) fn flush_if<F: Fn(&K, &V) -> bool>(
        &self,
        predicate: &F,
        leaves: &mut Vec<Leave<K, V, P>>,
        pieces: &mut Vec<Piece<K, V, P>>,
    ) -> Result<()> {
        for shard in self.all.as_slice() {
            shard.lock(&self.rt).flush_if(self.alloc, predicate, leaves, pieces)?;
        }
        Ok(())
    }

    // Pieces of the records of the shard at a place.
    #[inline]
    pub(crate) fn pieces(&self, place: usize) -> Result<Vec<Piece<K, V, P>>> {
        let Some(shard) = self.all.get(place) else {
            return Ok(Vec::new(self.alloc));
        };
        shard.lock(&self.rt).pieces(self.alloc)
    }
}
