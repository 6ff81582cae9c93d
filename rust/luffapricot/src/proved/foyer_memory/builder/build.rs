//! Building a cache.

// Written by rust/erase/erase.py from crates/foyer_memory/src/builder/build.rt: change that.
#[allow(unused_imports)]
use crate::rattle_std::prelude::*;
use super::CacheBuilder;
use crate::proved::foyer_memory::cache::Cache;
use crate::proved::foyer_memory::kind::Kind;
use crate::proved::foyer_core::{Filter, Finder, Weighter};
use crate::proved::foyer_policy::{EventListener, HashBuilder, Key, Properties, Result, Value};
use crate::proved::foyer_raw::{FetchTypes, RawCache};
use crate::rattle_std::log::{Log, warn};
use crate::rattle_std::alloc::Global;

impl<K, V, S, W, A, L> CacheBuilder<K, V, S, W, A, L>
where
    K: Key,
    V: Value,
    S: HashBuilder,
    W: Weighter<K, V>,
    A: Filter<K, V>,
    L: EventListener<Key = K, Value = V>,
{
    /// Builds an empty cache without a pipe.
    ///
    /// Logs a warning if the capacity is below the number of shards.
    ///
    /// # Errors
    /// F1 if there are no shards, F2 to F6 for the first fault of the policy's configuration, F7 if memory runs out.
    #[inline]
    pub fn build<H, P, Q, T, I, G>(
        self,
        rt: H,
        alloc: Global,
        log: &G,
    ) -> Result<Cache<H, K, V, S, P, W, A, L, Q, T, I>>
    where
        P: Properties,
        T: FetchTypes<K, V, P>,
        I: Finder<K>,
        G: Log,
    {
        let CacheBuilder { config, listener, time_to_live, keys: _ } = self;
        warn_of(log, config.capacity, config.shards);
        let kind = Kind::of(&config.eviction_config);
        match RawCache::new(rt, alloc, config, listener) {
            Ok(cache) => Ok(Cache { cache: cache.with_time_to_live(time_to_live), kind }),
            Err(error) => Err(error),
        }
    }
}

// Warns of a capacity below the number of shards.
#[inline]
fn warn_of<G: Log>(log: &G, capacity: usize, shards: usize) {
    if capacity < shards {
        warn!(log; "The in-memory cache capacity({capacity}) < shards({shards}).");
    }
}
