//! The builder of caches.

use crate::cache::Cache;
use crate::clock::{Clock, Source, nanoseconds};
use crate::config::EvictionConfig;
use crate::error::{Error, Result};
use crate::fetch::Spawner;
use crate::guard::Resumed;
use crate::key::Hashing;
use crate::properties::Properties;
use crate::proved::foyer_core::{Limits, RawCacheConfig};
use crate::proved::foyer_policy::{DefaultHasher, Event};
use crate::proved::foyer_raw::RawCache;
use crate::rattle_std::alloc::Global;
use crate::rattle_std::rt::HostRuntime;
use crate::rules::{Admit, Closure, EventListener, Filter, Key, Tell, Value, Weigh, Weighter};
use std::fmt;
use std::hash::BuildHasher;
use std::marker::PhantomData;
use std::sync::Arc;
use std::sync::atomic::{AtomicU64, Ordering};
use std::time::{Duration, Instant};

/// Builds a [`Cache`].
pub struct CacheBuilder<K: Key, V: Value, S = DefaultHasher> {
    capacity: usize,
    shards: usize,
    eviction_config: EvictionConfig,
    hash_builder: S,
    weighter: Weigh<K, V>,
    filter: Admit<K, V>,
    listener: Tell<K, V>,
    time_to_live: Option<Duration>,
    clock: Option<Source>,
    spawner: Option<Arc<dyn Spawner>>,
}

impl<K: Key, V: Value> CacheBuilder<K, V> {
    /// Creates a builder of a cache of this capacity, which is a total weight.
    ///
    /// By default there are 8 shards, the policy is LRU, each record weighs 1 and is admitted, and nothing expires.
    pub fn new(capacity: usize) -> Self {
        CacheBuilder {
            capacity,
            shards: 8,
            eviction_config: EvictionConfig::default(),
            hash_builder: DefaultHasher::default(),
            weighter: Weigh(None),
            filter: Admit(None),
            listener: Tell(None),
            time_to_live: None,
            clock: None,
            spawner: None,
        }
    }
}

impl<K: Key, V: Value, S: BuildHasher + Send + Sync + 'static> CacheBuilder<K, V, S> {
    /// Sets the number of shards, among which the capacity is divided. Each has a lock of its own, and evicts by itself.
    pub fn with_shards(mut self, shards: usize) -> Self {
        self.shards = shards;
        self
    }

    /// Sets the policy and its configuration.
    pub fn with_eviction_config(mut self, eviction_config: impl Into<EvictionConfig>) -> Self {
        self.eviction_config = eviction_config.into();
        self
    }

    /// Sets the hash builder. The default one is fast and has a fixed seed: whoever picks the keys can make them collide.
    /// Use [`std::hash::RandomState`] if that is an enemy.
    pub fn with_hash_builder<OS: BuildHasher + Send + Sync + 'static>(
        self,
        hash_builder: OS,
    ) -> CacheBuilder<K, V, OS> {
        CacheBuilder {
            capacity: self.capacity,
            shards: self.shards,
            eviction_config: self.eviction_config,
            hash_builder,
            weighter: self.weighter,
            filter: self.filter,
            listener: self.listener,
            time_to_live: self.time_to_live,
            clock: self.clock,
            spawner: self.spawner,
        }
    }

    /// Sets the weighter, which gives each record its weight, with no lock held.
    pub fn with_weighter(mut self, weighter: impl Weighter<K, V>) -> Self {
        self.weighter = Weigh(Some(Box::new(weighter)));
        self
    }

    /// Sets the filter, which is asked with no lock held. A record that it refuses is a phantom: `insert` returns its entry,
    /// but no look-up finds it.
    pub fn with_filter(mut self, filter: impl Filter<K, V>) -> Self {
        self.filter = Admit(Some(Box::new(filter)));
        self
    }

    /// Sets the listener, which is told of each record that leaves.
    pub fn with_event_listener(mut self, listener: Arc<dyn EventListener<Key = K, Value = V>>) -> Self {
        self.listener = Tell(Some(listener));
        self
    }

    /// Sets a closure as the listener, which is told of each record that leaves.
    pub fn with_listener(self, listener: impl Fn(Event, &K, &V) + Send + Sync + 'static) -> Self {
        self.with_event_listener(Arc::new(Closure(listener, PhantomData)))
    }

    /// Sets how long look-ups find a record, from its insert on or from the call that began its fetch, unless its
    /// properties say otherwise.
    pub fn with_time_to_live(mut self, time_to_live: Duration) -> Self {
        self.time_to_live = Some(time_to_live);
        self
    }

    /// Sets a clock, which returns the time since any origin, in place of the system's monotonic one. It is read only
    /// once a record has a time to live, or if a value is fetched or made, and may go back.
    pub fn with_clock(mut self, clock: impl Fn() -> Duration + Send + Sync + 'static) -> Self {
        self.clock = Some(Source::User(Arc::new(clock)));
        self
    }

    /// Sets what runs the tasks of fetches. Without one, and without a current runtime of the feature `tokio`, the first
    /// caller's future runs them.
    pub fn with_spawner(mut self, spawner: impl Spawner) -> Self {
        self.spawner = Some(Arc::new(spawner));
        self
    }

    /// Builds the cache.
    ///
    /// # Panics
    /// If there are no shards, if the configuration isn't accepted, or if memory runs out. See `try_build`.
    pub fn build<P: Properties>(self) -> Cache<K, V, S, P> {
        self.try_build().unwrap_or_else(|error| panic!("{error}"))
    }

    /// Builds the cache.
    ///
    /// # Errors
    /// F1 if there are no shards, F2 to F6 for the configuration's first fault, F7 if memory runs out.
    pub fn try_build<P: Properties>(self) -> Result<Cache<K, V, S, P>> {
        let config = RawCacheConfig {
            capacity: self.capacity,
            shards: self.shards,
            eviction_config: self.eviction_config.exact(),
            hash_builder: Hashing(self.hash_builder),
            weighter: self.weighter,
            filter: self.filter,
            // Pieces know their cache by it.
            number: BUILT.fetch_add(1, Ordering::Relaxed),
            limits: Limits::default(),
        };
        let source = self.clock.unwrap_or_else(|| Source::System(Instant::now()));
        let clock = Clock::new(source, self.time_to_live.is_some());
        let clock = crate::rattle_std::sync::Arc::new(Global, clock).map_err(|_| Error::no_memory())?;
        let inner = RawCache::new(HostRuntime, Global, config, self.listener)?;
        Ok(Cache {
            inner: Resumed::new(inner.with_time_to_live(self.time_to_live.map(nanoseconds))),
            clock,
            spawner: self.spawner,
        })
    }
}

// How many caches this process has built.
static BUILT: AtomicU64 = AtomicU64::new(0);

impl<K: Key, V: Value, S> fmt::Debug for CacheBuilder<K, V, S> {
    fn fmt(&self, f: &mut fmt::Formatter<'_>) -> fmt::Result {
        f.debug_struct("CacheBuilder")
            .field("capacity", &self.capacity)
            .field("shards", &self.shards)
            .field("eviction_config", &self.eviction_config)
            .field("time_to_live", &self.time_to_live)
            .finish_non_exhaustive()
    }
}
