//! Fetches of missing keys.

// Written by rust/erase/erase.py from crates/foyer_core/src/cache_core/fetches.rt: change that.
#[allow(unused_imports)]
use crate::rattle_std::prelude::*;
use super::CacheCore;
use crate::proved::foyer_core::filter::Filter;
use crate::proved::foyer_core::finder::Finder;
use crate::proved::foyer_core::inflight::FetchOrTake;
use crate::proved::foyer_core::outcome::{Ended, Lookup};
use crate::proved::foyer_core::weighter::Weighter;
use crate::proved::foyer_policy::{Error, Eviction, Fault, HashBuilder, Key, Properties, Reason, Result, Value};
use crate::rattle_std::alloc::Global;
use crate::rattle_std::sync::Arc;

impl<
    E: Eviction,
    K: Key,
    V: Value,
    P: Properties,
    S: HashBuilder,
    W: Weighter<K, V>,
    A: Filter<K, V>,
    N,
    R,
    I: Finder<K>,
> CacheCore<E, K, V, P, S, W, A, N, R, I>
{
    /// Returns an entry as `get` does at `now`, or a token to wait with if the key is missing.
    ///
    /// If the key has no open fetch, one is opened, and the caller leads it and gets its builder back. Otherwise the
    /// caller waits for that one, and its builder is kept if the fetch has none. A clone of the key must equal it.
    ///
    /// # Errors
    /// On a hit, those of `get`. On a miss, F10 if no number is left and F7 if memory runs out. Nothing has changed.
    #[inline]
    pub fn get_or_enqueue(&mut self, now: u64, key: &K, required: Option<R>, waiter: N) -> Result<Lookup<K, V, P, R>> {
        let hash = self.hash(key);
        let place = self.shard_index(hash);
        self.shards[place].get_or_enqueue(now, hash, key, required, waiter)
    }

    /// Returns whether this fetch of a key is open. Takes no memory.
    ///
    /// A key has at most one open fetch. If it has one and is resident, its record was expired when the fetch was
    /// opened.
    #[inline]
    pub fn is_open(&self, key: &K, fetch: u64) -> bool {
        let hash = self.hash(key);
        self.shards[self.shard_index(hash)].is_open(hash, key, fetch)
    }

    /// Ends an open fetch of a key with a fault, which its waiters get (F11). If the fetch isn't open, nothing
    /// changes. Takes no memory.
    #[inline]
    pub fn fail(&mut self, key: &K, fetch: u64, fault: Arc<Fault, Global>) -> Ended<K, V, P, N> {
        self.end(key, fetch, Error::new(Reason::Fetch(fault)))
    }

    /// Ends an open fetch of a key whose task was dropped; its waiters get F15. If the fetch isn't open, nothing
    /// changes. Takes no memory.
    #[inline]
    pub fn cancel(&mut self, key: &K, fetch: u64) -> Ended<K, V, P, N> {
        self.end(key, fetch, Error::new(Reason::TaskCancelled))
    }

    // Ends an open fetch of a key with an error.
    #[inline]
    pub(crate) fn end(&mut self, key: &K, fetch: u64, error: Error) -> Ended<K, V, P, N> {
        let hash = self.hash(key);
        let place = self.shard_index(hash);
        self.shards[place].end(self.alloc, hash, key, fetch, error)
    }

    /// Takes the builder that an open fetch keeps, to go on with after the fetch found nothing. If it keeps none,
    /// closes the fetch and returns its waiters.
    ///
    /// Returns `None` if the fetch isn't open. Takes no memory.
    #[inline]
    pub fn fetch_or_take(&mut self, key: &K, fetch: u64) -> Option<FetchOrTake<R, N>> {
        let hash = self.hash(key);
        let place = self.shard_index(hash);
        self.shards[place].fetch_or_take(hash, key, fetch)
    }
}
