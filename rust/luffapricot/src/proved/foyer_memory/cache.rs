//! A cache of any of the five policies.

// Written by rust/erase/erase.py from crates/foyer_memory/src/cache.rt: change that.
#[allow(unused_imports)]
use crate::rattle_std::prelude::*;
use crate::proved::foyer_memory::builder::CacheBuilder;
use crate::proved::foyer_memory::kind::Kind;
use crate::proved::foyer_memory::of::Of;
use crate::proved::foyer_memory::policy_config::PolicyConfig;
use crate::proved::foyer_core::{AdmitAll, CacheProperties, Finder, Stats, TagFinder, UnitWeighter};
use crate::proved::foyer_policy::{AnyEviction, DefaultHasher, EventListener, Key, Properties, Result, Value};
use crate::proved::foyer_raw::{FetchTypes, NoFetch, NoListener, NoopPipe, RawCache};
use crate::rattle_std::fmt::{self, Debug};
use crate::rattle_std::sync::{Arc, Wait};

mod blocking;
mod bulk;
mod fetching;
mod insertion;
mod keys;

/// An in-memory cache that threads share, with one of five eviction policies.
pub struct Cache<
    H,
    K,
    V,
    S = DefaultHasher,
    P = CacheProperties,
    W = UnitWeighter,
    A = AdmitAll,
    L = NoListener<K, V>,
    Q = NoopPipe<K, V, P>,
    T = NoFetch,
    I = TagFinder<K>,
> where
    K: Key,
    V: Value,
    P: Properties,
    L: EventListener<Key = K, Value = V>,
    I: Finder<K>,
    T: FetchTypes<K, V, P>,
{
    pub(crate) cache: RawCache<H, AnyEviction, K, V, S, P, W, A, L, Q, T, I>,
    pub(crate) kind: Kind,
}

impl<H, K: Key, V: Value> Cache<H, K, V> {
    /// Returns a builder of a cache of this capacity, with the defaults of `CacheBuilder::new`.
    #[inline]
    pub fn builder(capacity: usize) -> CacheBuilder<K, V> {
        CacheBuilder::new(capacity)
    }
}

impl<H, K, V, S, P, W, A, L, Q, T, I> Cache<H, K, V, S, P, W, A, L, Q, T, I>
where
    H: Wait,
    K: Key,
    V: Value,
    P: Properties,
    L: EventListener<Key = K, Value = V>,
    I: Finder<K>,
    T: FetchTypes<K, V, P>,
{
    /// Returns the cache's policy.
    #[inline]
    pub fn kind(&self) -> Kind {
        self.kind
    }

    /// Returns the cache with its policy in the type, or unchanged if its policy isn't the one that `C` configures.
    #[inline]
    pub fn of_policy<C: PolicyConfig>(self) -> crate::rattle_std::result::Result<Of<C, Self>, Self> {
        if self.kind == C::kind() { Ok(Of::new_of(self)) } else { Err(self) }
    }

    /// Returns another owner of the same cache, with the same pipe.
    ///
    /// # Errors
    /// F7 if a reference count is full.
    #[inline]
    pub fn try_clone(&self) -> Result<Self> {
        let (cache, kind) = (self.cache.try_clone()?, self.kind);
        Ok(Cache { cache, kind })
    }

    /// Returns the cache with this pipe, which its later entries, clones and tasks have too.
    ///
    /// Those made before keep the pipe that they had.
    #[inline]
    pub fn with_pipe(self, pipe: Arc<Q>) -> Self {
        let Cache { cache, kind } = self;
        Cache { cache: cache.with_pipe(pipe), kind }
    }

    /// Returns the capacity, a total weight, as the last `resize` or else the builder set it.
    #[inline]
    pub fn capacity(&self) -> usize {
        self.cache.capacity()
    }

    /// Returns the number of shards.
    #[inline]
    pub fn shards(&self) -> usize {
        self.cache.shards()
    }

    /// Returns the total weight of the resident records, expired ones included.
    ///
    /// Locks one shard after the other, so others may change meanwhile.
    #[inline]
    pub fn usage(&self) -> u128 {
        self.cache.usage()
    }

    /// Returns the number of resident records, expired ones included.
    ///
    /// Locks one shard after the other, so others may change meanwhile.
    #[inline]
    pub fn entries(&self) -> u128 {
        self.cache.entries()
    }

    /// Returns the counts since the cache was made or `reset_stats` was called.
    ///
    /// Locks one shard after the other, so others may change meanwhile.
    #[inline]
    pub fn stats(&self) -> Stats {
        self.cache.stats()
    }

    /// Sets all counts to 0, one shard after the other.
    #[inline]
    pub fn reset_stats(&self) {
        self.cache.reset_stats();
    }

    /// Returns the hash builder of the keys.
    #[inline]
    pub fn hash_builder(&self) -> &Arc<S> {
        self.cache.hash_builder()
    }
}

impl<H, K, V, S, P, W, A, L, Q, T, I> Debug for Cache<H, K, V, S, P, W, A, L, Q, T, I>
where
    K: Key,
    V: Value,
    P: Properties,
    L: EventListener<Key = K, Value = V>,
    I: Finder<K>,
    T: FetchTypes<K, V, P>,
{
    #[inline]
    fn fmt(&self, f: &mut fmt::Formatter<'_>) -> fmt::Result {
        f.write_str("Cache::")?;
        f.write_str(self.kind.name())?;
        f.write_str("Cache")
    }
}
