//! The caches of each policy, with their entries and look-ups, by name.

// Written by rust/erase/erase.py from crates/foyer_memory/src/types.rt: change that.
#[allow(unused_imports)]
use crate::rattle_std::prelude::*;
use crate::proved::foyer_memory::cache::Cache;
use crate::proved::foyer_memory::entry::CacheEntry;
use crate::proved::foyer_memory::fetch::GetOrFetch;
use crate::proved::foyer_memory::of::Of;
use crate::proved::foyer_core::{AdmitAll, CacheProperties, TagFinder, UnitWeighter};
use crate::proved::foyer_policy::{DefaultHasher, FifoConfig, LfuConfig, LruConfig, S3FifoConfig, SieveConfig};
use crate::proved::foyer_raw::{Direct, NoFetch, NoListener, NoopPipe};

/// A cache that fetches nothing by futures, with the type parameters first that most programs choose. `get_or_insert_with`
/// makes what is missing.
pub type PlainCache<
    H,
    K,
    V,
    W = UnitWeighter,
    L = NoListener<K, V>,
    S = DefaultHasher,
    P = CacheProperties,
    A = AdmitAll,
    Q = NoopPipe<K, V, P>,
    I = TagFinder<K>,
> = Cache<H, K, V, S, P, W, A, L, Q, NoFetch, I>;

/// A cache that fetches what is missing by futures of the type `R`: `get_or_fetch` and `get_or_fetch_blocking` take one.
pub type FetchCache<
    H,
    K,
    V,
    R,
    W = UnitWeighter,
    L = NoListener<K, V>,
    S = DefaultHasher,
    P = CacheProperties,
    A = AdmitAll,
    Q = NoopPipe<K, V, P>,
    I = TagFinder<K>,
> = Cache<H, K, V, S, P, W, A, L, Q, Direct<R>, I>;

/// A cache whose policy is FIFO.
pub type FifoCache<
    H,
    K,
    V,
    S = DefaultHasher,
    P = CacheProperties,
    W = UnitWeighter,
    A = AdmitAll,
    L = NoListener<K, V>,
    Q = NoopPipe<K, V, P>,
    T = NoFetch,
    I = TagFinder<K>,
> = Of<FifoConfig, Cache<H, K, V, S, P, W, A, L, Q, T, I>>;

/// An entry of a `FifoCache`.
pub type FifoCacheEntry<
    H,
    K,
    V,
    S = DefaultHasher,
    P = CacheProperties,
    W = UnitWeighter,
    A = AdmitAll,
    L = NoListener<K, V>,
    Q = NoopPipe<K, V, P>,
    T = NoFetch,
    I = TagFinder<K>,
> = Of<FifoConfig, CacheEntry<H, K, V, S, P, W, A, L, Q, T, I>>;

/// The result of a look-up in a `FifoCache` that fetches what is missing.
pub type FifoGetOrFetch<
    H,
    K,
    V,
    S = DefaultHasher,
    P = CacheProperties,
    W = UnitWeighter,
    A = AdmitAll,
    L = NoListener<K, V>,
    Q = NoopPipe<K, V, P>,
    T = NoFetch,
    I = TagFinder<K>,
> = Of<FifoConfig, GetOrFetch<H, K, V, S, P, W, A, L, Q, T, I>>;

/// A cache whose policy is S3-FIFO.
pub type S3FifoCache<
    H,
    K,
    V,
    S = DefaultHasher,
    P = CacheProperties,
    W = UnitWeighter,
    A = AdmitAll,
    L = NoListener<K, V>,
    Q = NoopPipe<K, V, P>,
    T = NoFetch,
    I = TagFinder<K>,
> = Of<S3FifoConfig, Cache<H, K, V, S, P, W, A, L, Q, T, I>>;

/// An entry of an `S3FifoCache`.
pub type S3FifoCacheEntry<
    H,
    K,
    V,
    S = DefaultHasher,
    P = CacheProperties,
    W = UnitWeighter,
    A = AdmitAll,
    L = NoListener<K, V>,
    Q = NoopPipe<K, V, P>,
    T = NoFetch,
    I = TagFinder<K>,
> = Of<S3FifoConfig, CacheEntry<H, K, V, S, P, W, A, L, Q, T, I>>;

/// The result of a look-up in an `S3FifoCache` that fetches what is missing.
pub type S3FifoGetOrFetch<
    H,
    K,
    V,
    S = DefaultHasher,
    P = CacheProperties,
    W = UnitWeighter,
    A = AdmitAll,
    L = NoListener<K, V>,
    Q = NoopPipe<K, V, P>,
    T = NoFetch,
    I = TagFinder<K>,
> = Of<S3FifoConfig, GetOrFetch<H, K, V, S, P, W, A, L, Q, T, I>>;

/// A cache whose policy is LRU.
pub type LruCache<
    H,
    K,
    V,
    S = DefaultHasher,
    P = CacheProperties,
    W = UnitWeighter,
    A = AdmitAll,
    L = NoListener<K, V>,
    Q = NoopPipe<K, V, P>,
    T = NoFetch,
    I = TagFinder<K>,
> = Of<LruConfig, Cache<H, K, V, S, P, W, A, L, Q, T, I>>;

/// An entry of an `LruCache`.
pub type LruCacheEntry<
    H,
    K,
    V,
    S = DefaultHasher,
    P = CacheProperties,
    W = UnitWeighter,
    A = AdmitAll,
    L = NoListener<K, V>,
    Q = NoopPipe<K, V, P>,
    T = NoFetch,
    I = TagFinder<K>,
> = Of<LruConfig, CacheEntry<H, K, V, S, P, W, A, L, Q, T, I>>;

/// The result of a look-up in an `LruCache` that fetches what is missing.
pub type LruGetOrFetch<
    H,
    K,
    V,
    S = DefaultHasher,
    P = CacheProperties,
    W = UnitWeighter,
    A = AdmitAll,
    L = NoListener<K, V>,
    Q = NoopPipe<K, V, P>,
    T = NoFetch,
    I = TagFinder<K>,
> = Of<LruConfig, GetOrFetch<H, K, V, S, P, W, A, L, Q, T, I>>;

/// A cache whose policy is w-TinyLFU.
pub type LfuCache<
    H,
    K,
    V,
    S = DefaultHasher,
    P = CacheProperties,
    W = UnitWeighter,
    A = AdmitAll,
    L = NoListener<K, V>,
    Q = NoopPipe<K, V, P>,
    T = NoFetch,
    I = TagFinder<K>,
> = Of<LfuConfig, Cache<H, K, V, S, P, W, A, L, Q, T, I>>;

/// An entry of an `LfuCache`.
pub type LfuCacheEntry<
    H,
    K,
    V,
    S = DefaultHasher,
    P = CacheProperties,
    W = UnitWeighter,
    A = AdmitAll,
    L = NoListener<K, V>,
    Q = NoopPipe<K, V, P>,
    T = NoFetch,
    I = TagFinder<K>,
> = Of<LfuConfig, CacheEntry<H, K, V, S, P, W, A, L, Q, T, I>>;

/// The result of a look-up in an `LfuCache` that fetches what is missing.
pub type LfuGetOrFetch<
    H,
    K,
    V,
    S = DefaultHasher,
    P = CacheProperties,
    W = UnitWeighter,
    A = AdmitAll,
    L = NoListener<K, V>,
    Q = NoopPipe<K, V, P>,
    T = NoFetch,
    I = TagFinder<K>,
> = Of<LfuConfig, GetOrFetch<H, K, V, S, P, W, A, L, Q, T, I>>;

/// A cache whose policy is Sieve.
pub type SieveCache<
    H,
    K,
    V,
    S = DefaultHasher,
    P = CacheProperties,
    W = UnitWeighter,
    A = AdmitAll,
    L = NoListener<K, V>,
    Q = NoopPipe<K, V, P>,
    T = NoFetch,
    I = TagFinder<K>,
> = Of<SieveConfig, Cache<H, K, V, S, P, W, A, L, Q, T, I>>;

/// An entry of a `SieveCache`.
pub type SieveCacheEntry<
    H,
    K,
    V,
    S = DefaultHasher,
    P = CacheProperties,
    W = UnitWeighter,
    A = AdmitAll,
    L = NoListener<K, V>,
    Q = NoopPipe<K, V, P>,
    T = NoFetch,
    I = TagFinder<K>,
> = Of<SieveConfig, CacheEntry<H, K, V, S, P, W, A, L, Q, T, I>>;

/// The result of a look-up in a `SieveCache` that fetches what is missing.
pub type SieveGetOrFetch<
    H,
    K,
    V,
    S = DefaultHasher,
    P = CacheProperties,
    W = UnitWeighter,
    A = AdmitAll,
    L = NoListener<K, V>,
    Q = NoopPipe<K, V, P>,
    T = NoFetch,
    I = TagFinder<K>,
> = Of<SieveConfig, GetOrFetch<H, K, V, S, P, W, A, L, Q, T, I>>;
