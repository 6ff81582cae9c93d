//! Look-ups that make or fetch what is missing, and block until it is there.

// Written by rust/erase/erase.py from crates/foyer_memory/src/cache/blocking.rt: change that.
#[allow(unused_imports)]
use crate::rattle_std::prelude::*;
use super::Cache;
use crate::proved::foyer_memory::entry::CacheEntry;
use crate::proved::foyer_core::{Filter, Finder, Weighter};
use crate::proved::foyer_policy::{EventListener, Fault, HashBuilder, Key, Properties, Result, Value};
use crate::proved::foyer_raw::{Direct, FetchTypes, Pipe, RequiredFetch, Runtime};

impl<H, K, V, S, P, W, A, L, Q, T, I> Cache<H, K, V, S, P, W, A, L, Q, T, I>
where
    H: Runtime,
    K: Key,
    V: Value,
    S: HashBuilder,
    P: Properties,
    W: Weighter<K, V>,
    A: Filter<K, V>,
    L: EventListener<Key = K, Value = V>,
    I: Finder<K>,
    Q: Pipe<Key = K, Value = V, Properties = P>,
    T: FetchTypes<K, V, P>,
{
    /// Returns an entry of the key's record; if a `get` at this time finds none, makes the value and inserts it.
    ///
    /// If several callers miss the same key, the first one calls its closure, with no lock held, and the others block until
    /// it is done. The closure may use the cache under other keys; if it asks for its own key by a call that waits, it never
    /// returns. If a fetch by `get_or_fetch` is open for the key, the call blocks until that fetch's task has ended.
    ///
    /// # Errors
    /// F9 and F7 as `get`; on a miss F10 and F7, what the insert fails with (F7 to F10), F11 with the fault, for all that
    /// wait, if the closure fails, and F14 if the runtime can't block this thread. If another caller's fetch is open, what
    /// that ends with (F12, F13 and F15 too).
    #[inline]
    pub fn get_or_insert_with<F>(
        &self,
        now: u64,
        key: &K,
        make: F,
    ) -> Result<CacheEntry<H, K, V, S, P, W, A, L, Q, T, I>>
    where
        F: FnOnce() -> crate::rattle_std::result::Result<V, Fault>,
    {
        let (entry, kind) = (self.cache.get_or_insert_with(now, key, make)?, self.kind);
        Ok(CacheEntry { entry, kind })
    }

    /// Returns an entry of the key's record as `get_or_insert_with` does. The closure returns the properties too, such as
    /// the value's own expiry.
    ///
    /// # Errors
    /// Those of `get_or_insert_with`.
    #[inline]
    pub fn get_or_insert_with_properties<F>(
        &self,
        now: u64,
        key: &K,
        make: F,
    ) -> Result<CacheEntry<H, K, V, S, P, W, A, L, Q, T, I>>
    where
        F: FnOnce() -> crate::rattle_std::result::Result<(V, P), Fault>,
    {
        let (entry, kind) = (self.cache.get_or_insert_with_properties(now, key, make)?, self.kind);
        Ok(CacheEntry { entry, kind })
    }
}

impl<H, K, V, S, P, W, A, L, Q, R, I> Cache<H, K, V, S, P, W, A, L, Q, Direct<R>, I>
where
    H: Runtime,
    K: Key,
    V: Value,
    S: HashBuilder,
    P: Properties,
    W: Weighter<K, V>,
    A: Filter<K, V>,
    L: EventListener<Key = K, Value = V>,
    I: Finder<K>,
    Q: Pipe<Key = K, Value = V, Properties = P>,
    R: RequiredFetch<K, V, P>,
{
    /// Returns an entry of the key's record; if a `get` at this time finds none, fetches it as `get_or_fetch` does, drives the
    /// fetch's task on this thread, and blocks until it is done. If another caller leads the fetch, the call blocks until that
    /// caller's task has ended, and this future is dropped.
    ///
    /// # Errors
    /// F9 and F7 as `get`; on a miss F10 and F7, what the insert fails with (F7 to F10, F12), F11 with the fault if the fetch
    /// fails, and F14 if the runtime can't block this thread. If another caller's fetch is open, what that ends with (F13 and
    /// F15 too).
    #[inline]
    pub fn get_or_fetch_blocking(
        &self,
        now: u64,
        key: &K,
        fetch: R,
    ) -> Result<CacheEntry<H, K, V, S, P, W, A, L, Q, Direct<R>, I>> {
        let (entry, kind) = (self.cache.get_or_fetch_blocking(now, key, fetch)?, self.kind);
        Ok(CacheEntry { entry, kind })
    }
}
