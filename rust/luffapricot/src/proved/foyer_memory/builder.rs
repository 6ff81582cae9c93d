//! The builder of caches.

// Written by rust/erase/erase.py from crates/foyer_memory/src/builder.rt: change that.
#[allow(unused_imports)]
use crate::rattle_std::prelude::*;
use crate::proved::foyer_core::{AdmitAll, Filter, Limits, RawCacheConfig, UnitWeighter, Weighter};
use crate::proved::foyer_policy::{DefaultHasher, EventListener, EvictionConfig, HashBuilder, Key, Value};
use crate::proved::foyer_raw::NoListener;
use crate::rattle_std::marker::PhantomData;

mod build;

/// Builds a `Cache`.
///
/// The setters of the hash builder, the weighter, the filter and the listener change the builder's type.
pub struct CacheBuilder<K, V, S = DefaultHasher, W = UnitWeighter, A = AdmitAll, L = NoListener<K, V>> {
    config: RawCacheConfig<EvictionConfig, S, W, A>,
    listener: L,
    time_to_live: Option<u64>,
    keys: PhantomData<(K, V)>,
}

impl<K: Key, V: Value> CacheBuilder<K, V> {
    /// Creates a builder of a cache of this capacity, which is a total weight.
    ///
    /// By default there are 8 shards, the policy is LRU with its default configuration, each record weighs 1 and is
    /// admitted, there is no listener, and the number is 0.
    #[inline]
    pub fn new(capacity: usize) -> Self {
        CacheBuilder {
            config: RawCacheConfig::new(capacity),
            listener: NoListener::new(),
            time_to_live: None,
            keys: PhantomData,
        }
    }
}

impl<K, V, S, W, A, L> CacheBuilder<K, V, S, W, A, L>
where
    K: Key,
    V: Value,
    S: HashBuilder,
    W: Weighter<K, V>,
    A: Filter<K, V>,
    L: EventListener<Key = K, Value = V>,
{
    /// Sets the number of shards, among which the capacity is divided.
    #[inline]
    pub fn with_shards(mut self, shards: usize) -> Self {
        self.config.shards = shards;
        self
    }

    /// Sets the policy and its configuration.
    #[inline]
    pub fn with_eviction_config(mut self, eviction_config: EvictionConfig) -> Self {
        self.config.eviction_config = eviction_config;
        self
    }

    /// Sets the cache's number, by which it knows its own pieces. Caches that exchange pieces need different numbers.
    #[inline]
    pub fn with_number(mut self, number: u64) -> Self {
        self.config.number = number;
        self
    }

    /// Sets the limits of the handle counts and of the ids.
    #[inline]
    pub fn with_limits(mut self, limits: Limits) -> Self {
        self.config.limits = limits;
        self
    }

    /// Sets a time to live, in the unit of the current time.
    ///
    /// A record that is inserted or fetched without an expiry of its own then expires at that call's `now + time_to_live`,
    /// at most 2^64 - 1; with 0, no look-up finds it. A piece keeps the expiry that it has.
    #[inline]
    pub fn with_time_to_live(mut self, time_to_live: u64) -> Self {
        self.time_to_live = Some(time_to_live);
        self
    }

    /// Sets the hash builder of the keys.
    #[inline]
    pub fn with_hash_builder<X: HashBuilder>(self, hash_builder: X) -> CacheBuilder<K, V, X, W, A, L> {
        let CacheBuilder { config, listener, time_to_live, keys } = self;
        let RawCacheConfig { capacity, shards, eviction_config, hash_builder: _, weighter, filter, number, limits } =
            config;
        CacheBuilder {
            config: RawCacheConfig {
                capacity,
                shards,
                eviction_config,
                hash_builder,
                weighter,
                filter,
                number,
                limits,
            },
            listener,
            time_to_live,
            keys,
        }
    }

    /// Sets the weighter, which gives each record its weight.
    #[inline]
    pub fn with_weighter<X: Weighter<K, V>>(self, weighter: X) -> CacheBuilder<K, V, S, X, A, L> {
        let CacheBuilder { config, listener, time_to_live, keys } = self;
        CacheBuilder { config: config.with_weighter(weighter), listener, time_to_live, keys }
    }

    /// Sets the filter. A record that it refuses is held by its entry alone, and no `get` finds it.
    #[inline]
    pub fn with_filter<X: Filter<K, V>>(self, filter: X) -> CacheBuilder<K, V, S, W, X, L> {
        let CacheBuilder { config, listener, time_to_live, keys } = self;
        CacheBuilder { config: config.with_filter(filter), listener, time_to_live, keys }
    }

    /// Sets the listener, which is told of each record that leaves.
    #[inline]
    pub fn with_event_listener<X: EventListener<Key = K, Value = V>>(
        self,
        listener: X,
    ) -> CacheBuilder<K, V, S, W, A, X> {
        let CacheBuilder { config, listener: _, time_to_live, keys } = self;
        CacheBuilder { config, listener, time_to_live, keys }
    }
}
