//! The cache that threads share.

// Written by rust/erase/erase.py from crates/foyer_raw/src/cache.rt: change that.
#[allow(unused_imports)]
use crate::rattle_std::prelude::*;
use crate::proved::foyer_raw::counted::Capacity;
use crate::proved::foyer_raw::fetch::{FetchTypes, NoFetch};
use crate::proved::foyer_raw::listener::NoListener;
use crate::proved::foyer_raw::pipe::{NoopPipe, Pipe};
use crate::proved::foyer_raw::shards::Shards;
use crate::proved::foyer_raw::shared::Shared;
use crate::proved::foyer_raw::shares::Shares;
use crate::proved::foyer_raw::stripes::Stripes;
use crate::proved::foyer_raw::ticket::{Answer, Notifier};
use crate::proved::foyer_core::{
    AdmitAll, CacheCore, CacheProperties, Filter, Finder, RawCacheConfig, Rules, Stats, TagFinder, UnitWeighter,
    Weighter,
};
use crate::proved::foyer_policy::{
    DefaultHasher, Error, EventListener, Eviction, HashBuilder, Key, Properties, Reason, Result, Value,
};
use crate::rattle_std::alloc::Global;
use crate::rattle_std::sync::{Arc, Wait};

mod blocking;
mod bulk;
mod conditional;
mod fetching;
mod insertion;
mod keys;

/// An in-memory cache that threads share, with its eviction policy as a type parameter.
///
/// Each shard has a lock of its own. A call on a key makes a step of its shard, a call on all records one of each shard in
/// turn; what left is reported after the lock is released.
pub struct RawCache<
    H,
    E,
    K,
    V,
    S = DefaultHasher,
    P = CacheProperties,
    W = UnitWeighter,
    A = AdmitAll,
    L = NoListener<K, V>,
    Q = NoopPipe<K, V, P>,
    T = NoFetch,
    I = TagFinder<K>,
> where
    E: Eviction,
    K: Key,
    V: Value,
    P: Properties,
    L: EventListener<Key = K, Value = V>,
    I: Finder<K>,
    T: FetchTypes<K, V, P>,
{
    shares: Shares<H, E, K, V, S, P, W, A, L, Q, T::Required, I>,
    stripes: Arc<Stripes<H, E, K, V, S, P, W, A, L, T::Required, I>>,
    time_to_live: Option<u64>,
}

impl<H, E, K, V, S, P, W, A, L, Q, T, I> RawCache<H, E, K, V, S, P, W, A, L, Q, T, I>
where
    E: Eviction,
    K: Key,
    V: Value,
    S: HashBuilder,
    P: Properties,
    W: Weighter<K, V>,
    A: Filter<K, V>,
    L: EventListener<Key = K, Value = V>,
    I: Finder<K>,
    T: FetchTypes<K, V, P>,
{
    /// Creates an empty cache without a pipe, whose capacity is divided among its shards.
    ///
    /// # Errors
    /// F1 if there are no shards, F2 to F6 for the first fault of the policy's configuration, F7 if memory runs out.
    #[inline]
    pub fn new(rt: H, alloc: Global, config: RawCacheConfig<E::Config, S, W, A>, listener: L) -> Result<Self> {
        if config.shards == 0 {
            return Err(Error::new(Reason::NoShards));
        }
        let made =
            CacheCore::<E, K, V, P, S, W, A, Notifier<Answer<K, V, P>>, T::Required, I>::new_shards(alloc, &config)?;
        let shared = Shared {
            shards: ::std::mem::ManuallyDrop::new(Shards::new(rt, alloc, made, Capacity::new(config.capacity))?),
            hash_builder: Arc::new(alloc, config.hash_builder)?,
            rules: Rules { weighter: config.weighter, filter: config.filter },
            listener,
        };
        let stripes = Stripes::new(alloc, shared, config.shards)?;
        Ok(RawCache {
            shares: Shares { shared: stripes.share(0)?, pipe: None },
            stripes: Arc::new(alloc, stripes)?,
            time_to_live: None,
        })
    }

    /// Sets the time to live of this value and of clones made of it later, in the unit of the current time: a record that
    /// they insert or fetch without an expiry of its own expires at the call's `now + time_to_live` (at most 2^64 - 1).
    #[inline]
    pub fn with_time_to_live(mut self, time_to_live: Option<u64>) -> Self {
        self.time_to_live = time_to_live;
        self
    }
}

impl<H, E, K, V, S, P, W, A, L, Q, T, I> RawCache<H, E, K, V, S, P, W, A, L, Q, T, I>
where
    H: Wait,
    E: Eviction,
    K: Key,
    V: Value,
    P: Properties,
    L: EventListener<Key = K, Value = V>,
    I: Finder<K>,
    T: FetchTypes<K, V, P>,
{
    /// Returns another owner of the same cache, with the same pipe.
    ///
    /// # Errors
    /// F7 if a reference count is full.
    #[inline]
    pub fn try_clone(&self) -> Result<Self> {
        Ok(RawCache {
            shares: self.shares.try_clone()?,
            stripes: Arc::try_clone(&self.stripes)?,
            time_to_live: self.time_to_live,
        })
    }

    /// Returns the cache with this pipe, which its later entries, clones and tasks have too.
    ///
    /// Those made before keep the pipe that they had.
    #[inline]
    pub fn with_pipe(self, pipe: Arc<Q>) -> Self {
        let RawCache { shares, stripes, time_to_live } = self;
        let Shares { shared, pipe: _ } = shares;
        RawCache { shares: Shares { shared, pipe: Some(pipe) }, stripes, time_to_live }
    }

    /// Returns the capacity, a total weight, as the last `resize` or else the configuration set it.
    #[inline]
    pub fn capacity(&self) -> usize {
        self.shares.shared.shards.capacity().weight()
    }

    /// Returns the number of shards.
    #[inline]
    pub fn shards(&self) -> usize {
        self.shares.shared.shards.len()
    }

    /// Returns the total weight of the resident records, expired ones included.
    ///
    /// Locks one shard after the other, so others may change meanwhile.
    #[inline]
    pub fn usage(&self) -> u128 {
        self.shares.shared.shards.usage()
    }

    /// Returns the number of resident records, expired ones included.
    ///
    /// Locks one shard after the other, so others may change meanwhile.
    #[inline]
    pub fn entries(&self) -> u128 {
        self.shares.shared.shards.entries()
    }

    /// Returns the counts since the cache was made or `reset_stats` was called.
    ///
    /// Locks one shard after the other, so others may change meanwhile.
    #[inline]
    pub fn stats(&self) -> Stats {
        self.shares.shared.shards.stats()
    }

    /// Sets all counts to 0, one shard after the other.
    #[inline]
    pub fn reset_stats(&self) {
        self.shares.shared.shards.reset_stats();
    }

    /// Returns the hash builder of the keys.
    #[inline]
    pub fn hash_builder(&self) -> &Arc<S> {
        &self.shares.shared.hash_builder
    }

    // Shares for an entry, a wait or a task of a key with this hash. Fails with F7 if a reference count is full.
    #[inline(always)]
    fn shares_of(&self, hash: u64) -> Result<Shares<H, E, K, V, S, P, W, A, L, Q, T::Required, I>> {
        let pipe = self.shares.pipe_again()?;
        let shared = self.stripes.share(hash)?;
        Ok(Shares { shared, pipe })
    }
}
