//! Look-ups that fetch what is missing.

// Written by rust/erase/erase.py from crates/foyer_memory/src/cache/fetching.rt: change that.
#[allow(unused_imports)]
use crate::rattle_std::prelude::*;
use super::Cache;
use crate::proved::foyer_memory::fetch::{FetchTask, GetOrFetch};
use crate::proved::foyer_core::{Filter, Finder, Weighter};
use crate::proved::foyer_policy::{EventListener, HashBuilder, Key, Properties, Result, Value};
use crate::proved::foyer_raw::{Direct, FetchTypes, Pipe, RequiredFetch, Spawner};
use crate::rattle_std::sync::Wait;

impl<H, K, V, S, P, W, A, L, Q, T, I> Cache<H, K, V, S, P, W, A, L, Q, T, I>
where
    H: Wait,
    K: Key,
    V: Value,
    S: HashBuilder,
    P: Properties,
    W: Weighter<K, V>,
    A: Filter<K, V>,
    L: EventListener<Key = K, Value = V>,
    I: Finder<K>,
    Q: Pipe<Key = K, Value = V, Properties = P>,
    T: FetchTypes<K, V, P>,
{
    /// Returns an entry of the key's record, or a wait for a fetch of the key.
    ///
    /// If a `get` at `now` misses the key, the caller waits for the key's open fetch, or for a new one, whose task goes to
    /// the spawner. The task inserts what it fetched at this `now`, whenever it is polled.
    ///
    /// `fr` is called once on a miss, and `fo` once if a new fetch begins, both with no lock held. A required builder that
    /// the caller brings to an open fetch is kept if that has none.
    ///
    /// # Errors
    /// On a hit, F9 if the handle count would pass its limit and F7 if a reference count is full; a hit takes no memory.
    /// On a miss, F10 if no number is left and F7 if memory runs out.
    #[inline]
    pub fn get_or_fetch_inner<O, F, X>(
        &self,
        now: u64,
        key: &K,
        fo: O,
        fr: F,
        context: T::Context,
        spawner: &mut X,
    ) -> Result<GetOrFetch<H, K, V, S, P, W, A, L, Q, T, I>>
    where
        O: FnOnce() -> Option<T::Optional>,
        F: FnOnce() -> Option<T::Required>,
        X: Spawner<FetchTask<H, K, V, S, P, W, A, L, Q, T, I>>,
    {
        let kind = self.kind;
        let look = self.cache.get_or_fetch_inner(now, key, fo, fr, context, spawner)?;
        Ok(GetOrFetch { look, kind })
    }
}

impl<H, K, V, S, P, W, A, L, Q, R, I> Cache<H, K, V, S, P, W, A, L, Q, Direct<R>, I>
where
    H: Wait,
    K: Key,
    V: Value,
    S: HashBuilder,
    P: Properties,
    W: Weighter<K, V>,
    A: Filter<K, V>,
    L: EventListener<Key = K, Value = V>,
    I: Finder<K>,
    Q: Pipe<Key = K, Value = V, Properties = P>,
    R: RequiredFetch<K, V, P>,
{
    /// Returns an entry of the key's record, or a wait for its fetch, which polls the closure's future.
    ///
    /// The closure is called on a hit too. If the key has an open fetch, the caller waits for that one.
    ///
    /// # Errors
    /// Those of `get_or_fetch_inner`.
    #[inline]
    pub fn get_or_fetch<F, X>(
        &self,
        now: u64,
        key: &K,
        fetch: F,
        spawner: &mut X,
    ) -> Result<GetOrFetch<H, K, V, S, P, W, A, L, Q, Direct<R>, I>>
    where
        F: FnOnce() -> R,
        X: Spawner<FetchTask<H, K, V, S, P, W, A, L, Q, Direct<R>, I>>,
    {
        let (look, kind) = (self.cache.get_or_fetch(now, key, fetch, spawner)?, self.kind);
        Ok(GetOrFetch { look, kind })
    }
}
