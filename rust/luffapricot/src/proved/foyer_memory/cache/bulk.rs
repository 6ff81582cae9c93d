//! Calls on all records.

// Written by rust/erase/erase.py from crates/foyer_memory/src/cache/bulk.rt: change that.
#[allow(unused_imports)]
use crate::rattle_std::prelude::*;
use super::Cache;
use crate::proved::foyer_core::Finder;
use crate::proved::foyer_policy::{
    AnyEviction, Error, EventListener, Eviction, EvictionConfig, Key, Properties, Reason, Result, Value,
};
use crate::proved::foyer_raw::{FetchTypes, Flush, FlushIf, Pipe};
use crate::rattle_std::sync::Wait;

impl<H, K, V, S, P, W, A, L, Q, T, I> Cache<H, K, V, S, P, W, A, L, Q, T, I>
where
    H: Wait,
    K: Key,
    V: Value,
    P: Properties,
    L: EventListener<Key = K, Value = V>,
    I: Finder<K>,
    Q: Pipe<Key = K, Value = V, Properties = P>,
    T: FetchTypes<K, V, P>,
{
    /// Removes all records, shard by shard, in the policy's order. The listener is told of each as `Clear`.
    ///
    /// # Errors
    /// F7 if memory runs out; the shards before are cleared, and their records reported.
    #[inline]
    pub fn clear(&self) -> Result<()> {
        self.cache.clear()
    }

    /// Evicts all records that aren't pinned, shard by shard: those expired at `now` first, then in the policy's order.
    ///
    /// # Errors
    /// F7 if memory runs out; the evictions made so far stand and are reported.
    #[inline]
    pub fn evict_all(&self, now: u64) -> Result<()> {
        self.cache.evict_all(now)
    }

    /// Sets the capacity, divides it among the shards and evicts what no longer fits, records expired at `now` first.
    ///
    /// Calls of `resize` and `reconfigure` take turns.
    ///
    /// # Errors
    /// F7 if memory runs out; the capacity is set all the same, and the evictions made so far stand and are reported.
    #[inline]
    pub fn resize(&self, now: u64, capacity: usize) -> Result<()> {
        self.cache.resize(now, capacity)
    }

    /// Gives the policy another configuration, shard by shard, which later calls of `resize` use too.
    ///
    /// No record leaves, and no memory is taken. Calls of `resize` and `reconfigure` take turns.
    ///
    /// # Errors
    /// F17 if the configuration is of another policy, F2 to F6 for its first fault; nothing has changed.
    #[inline]
    pub fn reconfigure(&self, config: EvictionConfig) -> Result<()> {
        if !self.kind.has(&config) {
            return Err(Error::new(Reason::WrongPolicy));
        }
        AnyEviction::check(&config)?;
        self.cache.configure(&config);
        Ok(())
    }

    /// Evicts all records that aren't pinned, as `evict_all` does, and hands their pieces to the pipe if it is enabled.
    ///
    /// All of that happens in this call; the future waits for the pipe.
    ///
    /// # Errors
    /// The future gives F7 if memory ran out; the evictions made until then stand and are reported.
    #[inline]
    pub fn flush(&self, now: u64) -> Flush<Q::Flush> {
        self.cache.flush(now)
    }

    /// Evicts the records for which the predicate returns true, pinned or not, and reports them as `flush` does.
    ///
    /// The predicate is called once for each record, under its shard's lock: it must not call this cache.
    ///
    /// # Errors
    /// The future gives F7 if memory ran out; the shards before are done.
    #[inline]
    pub fn flush_if<F: Fn(&K, &V) -> bool>(&self, predicate: F) -> FlushIf<Q::Flush> {
        self.cache.flush_if(predicate)
    }

    /// Calls a closure with each record, expired or not: shard by shard, in the policy's order. The records of a shard are
    /// those that it had at one moment. No lock is held during a call, so the closure may use the cache. It counts as no use.
    ///
    /// # Errors
    /// F7 if memory runs out; the shards before have been visited.
    #[inline]
    pub fn for_each<F: FnMut(&K, &V)>(&self, visit: F) -> Result<()> {
        self.cache.for_each(visit)
    }

    /// Returns a clone of each record's key, expired or not, in the order of `for_each`.
    ///
    /// # Errors
    /// F7 if memory runs out.
    #[inline]
    pub fn keys(&self) -> Result<Vec<K>> {
        self.cache.keys()
    }

    /// Removes each record for which a closure returns false, as `Remove`, and tells the listener. The closure sees each record,
    /// expired or not, in the order of `for_each`, and may use the cache. A record that was replaced meanwhile stays.
    ///
    /// # Errors
    /// F7 if memory runs out; the shards before are done.
    #[inline]
    pub fn retain<F: FnMut(&K, &V) -> bool>(&self, keep: F) -> Result<()> {
        self.cache.retain(keep)
    }
}
