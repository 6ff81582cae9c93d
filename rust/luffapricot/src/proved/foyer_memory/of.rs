//! Caches, entries and look-ups with their policy in the type.

// Written by rust/erase/erase.py from crates/foyer_memory/src/of.rt: change that.
#[allow(unused_imports)]
use crate::rattle_std::prelude::*;
use crate::proved::foyer_memory::cache::Cache;
use crate::proved::foyer_memory::entry::CacheEntry;
use crate::proved::foyer_memory::fetch::GetOrFetch;
use crate::proved::foyer_memory::kind::Kind;
use crate::proved::foyer_memory::policy_config::PolicyConfig;
use crate::proved::foyer_core::{Filter, Finder, RawCacheConfig, Weighter};
use crate::proved::foyer_policy::{EventListener, HashBuilder, Key, Properties, Result, Value};
use crate::proved::foyer_raw::{FetchTypes, Pipe, RawCache};
use crate::rattle_std::alloc::Global;
use crate::rattle_std::marker::PhantomData;
use crate::rattle_std::ops::Deref;
use crate::rattle_std::sync::Wait;

/// An `X`, which is a cache, an entry or a look-up, with its policy in the type: the one that `C` configures.
pub struct Of<C, X> {
    inner: X,
    policy: PhantomData<C>,
}

impl<C, X> Of<C, X> {
    // This one, which is of the policy.
    #[inline]
    pub(crate) fn new_of(inner: X) -> Self {
        Of { inner, policy: PhantomData }
    }
}

impl<C, X> Deref for Of<C, X> {
    type Target = X;

    #[inline]
    fn deref(&self) -> &X {
        &self.inner
    }
}

impl<C, H, K, V, S, P, W, A, L, Q, T, I> Of<C, Cache<H, K, V, S, P, W, A, L, Q, T, I>>
where
    C: PolicyConfig,
    K: Key,
    V: Value,
    S: HashBuilder,
    P: Properties,
    W: Weighter<K, V>,
    A: Filter<K, V>,
    L: EventListener<Key = K, Value = V>,
    I: Finder<K>,
    T: FetchTypes<K, V, P>,
{
    /// Creates an empty cache without a pipe.
    ///
    /// # Errors
    /// F1 if there are no shards, F2 to F6 for the first fault of the policy's configuration, F7 if memory runs out.
    #[inline]
    pub fn new(rt: H, alloc: Global, config: RawCacheConfig<C, S, W, A>, listener: L) -> Result<Self> {
        let config = RawCacheConfig {
            capacity: config.capacity,
            shards: config.shards,
            eviction_config: config.eviction_config.into_any(),
            hash_builder: config.hash_builder,
            weighter: config.weighter,
            filter: config.filter,
            number: config.number,
            limits: config.limits,
        };
        match RawCache::new(rt, alloc, config, listener) {
            Ok(cache) => Ok(Of::new_of(Cache { cache, kind: C::kind() })),
            Err(error) => Err(error),
        }
    }
}

impl<C, H, K, V, S, P, W, A, L, Q, T, I> From<Of<C, Cache<H, K, V, S, P, W, A, L, Q, T, I>>>
    for Cache<H, K, V, S, P, W, A, L, Q, T, I>
where
    C: PolicyConfig,
    K: Key,
    V: Value,
    P: Properties,
    L: EventListener<Key = K, Value = V>,
    I: Finder<K>,
    T: FetchTypes<K, V, P>,
{
    #[inline]
    fn from(of: Of<C, Cache<H, K, V, S, P, W, A, L, Q, T, I>>) -> Self {
        let mut cache = of.inner;
        cache.kind = C::kind();
        cache
    }
}

impl<C, H, K, V, S, P, W, A, L, Q, T, I> From<Of<C, CacheEntry<H, K, V, S, P, W, A, L, Q, T, I>>>
    for CacheEntry<H, K, V, S, P, W, A, L, Q, T, I>
where
    C: PolicyConfig,
    H: Wait,
    K: Key,
    V: Value,
    P: Properties,
    L: EventListener<Key = K, Value = V>,
    I: Finder<K>,
    Q: Pipe<Key = K, Value = V, Properties = P>,
    T: FetchTypes<K, V, P>,
{
    #[inline]
    fn from(of: Of<C, CacheEntry<H, K, V, S, P, W, A, L, Q, T, I>>) -> Self {
        let mut entry = of.inner;
        entry.kind = C::kind();
        entry
    }
}

impl<C, H, K, V, S, P, W, A, L, Q, T, I> From<Of<C, GetOrFetch<H, K, V, S, P, W, A, L, Q, T, I>>>
    for GetOrFetch<H, K, V, S, P, W, A, L, Q, T, I>
where
    C: PolicyConfig,
    H: Wait,
    K: Key,
    V: Value,
    P: Properties,
    L: EventListener<Key = K, Value = V>,
    I: Finder<K>,
    Q: Pipe<Key = K, Value = V, Properties = P>,
    T: FetchTypes<K, V, P>,
{
    #[inline]
    fn from(of: Of<C, GetOrFetch<H, K, V, S, P, W, A, L, Q, T, I>>) -> Self {
        let mut look = of.inner;
        look.kind = C::kind();
        look
    }
}
