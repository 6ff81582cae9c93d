//! Look-ups by a key.

// Written by rust/erase/erase.py from crates/foyer_memory/src/cache/keys.rt: change that.
#[allow(unused_imports)]
use crate::rattle_std::prelude::*;
use super::Cache;
use crate::proved::foyer_memory::entry::CacheEntry;
use crate::proved::foyer_core::Finder;
use crate::proved::foyer_policy::{EventListener, HashBuilder, Key, Properties, Result, Value};
use crate::proved::foyer_raw::{FetchTypes, Pipe};
use crate::rattle_std::sync::Wait;

impl<H, K, V, S, P, W, A, L, Q, T, I> Cache<H, K, V, S, P, W, A, L, Q, T, I>
where
    H: Wait,
    K: Key,
    V: Value,
    S: HashBuilder,
    P: Properties,
    L: EventListener<Key = K, Value = V>,
    I: Finder<K>,
    Q: Pipe<Key = K, Value = V, Properties = P>,
    T: FetchTypes<K, V, P>,
{
    /// Returns the hash of a key, as the hash builder makes it. Equal keys have equal hashes.
    #[inline]
    pub fn hash(&self, key: &K) -> u64 {
        self.cache.hash(key)
    }

    /// Returns an entry of the key's record, unless that is expired at `now`. This counts as a use.
    ///
    /// Allocates nothing.
    ///
    /// # Errors
    /// F9 if the handle count would pass its limit, F7 if a reference count is full.
    #[inline]
    pub fn get(&self, now: u64, key: &K) -> Result<Option<CacheEntry<H, K, V, S, P, W, A, L, Q, T, I>>> {
        let kind = self.kind;
        match self.cache.get(now, key)? {
            Some(entry) => Ok(Some(CacheEntry { entry, kind })),
            None => Ok(None),
        }
    }

    /// Calls `look` with the value that a `get` at `now` would find, counts a use of its record, and returns what `look`
    /// returned. Makes no entry, and takes one lock.
    ///
    /// `look` runs under that lock: it must not call the cache, and should be short.
    ///
    /// # Errors
    /// F9 if the handle count would pass its limit.
    #[inline(always)]
    pub fn read<X, F: FnOnce(&V) -> X>(&self, now: u64, key: &K, look: F) -> Result<Option<X>> {
        self.cache.read(now, key, look)
    }

    /// Calls `look` as `read` does, and counts no use. A `peek` isn't counted among hits and misses either.
    #[inline(always)]
    pub fn peek<X, F: FnOnce(&V) -> X>(&self, now: u64, key: &K, look: F) -> Option<X> {
        self.cache.peek(now, key, look)
    }

    /// Returns a copy of the value that a `get` at `now` would find. This counts as a use, as `read` does.
    ///
    /// # Errors
    /// F9 if the handle count would pass its limit.
    #[inline(always)]
    pub fn get_copied(&self, now: u64, key: &K) -> Result<Option<V>>
    where
        V: Copy,
    {
        self.cache.get_copied(now, key)
    }

    /// Returns a clone of the value that a `get` at `now` would find, made under the shard's lock. This counts as a use, as
    /// `read` does.
    ///
    /// # Errors
    /// F9 if the handle count would pass its limit, F7 if the clone fails, which still counts as a use.
    #[inline(always)]
    pub fn get_cloned(&self, now: u64, key: &K) -> Result<Option<V>>
    where
        V: TryClone,
    {
        self.cache.get_cloned(now, key)
    }

    /// Removes the key's record, expired or not, and returns an entry of it. The listener is told of it as `Remove`.
    ///
    /// # Errors
    /// Those of `get`.
    #[inline]
    pub fn remove(&self, key: &K) -> Result<Option<CacheEntry<H, K, V, S, P, W, A, L, Q, T, I>>> {
        let kind = self.kind;
        match self.cache.remove(key)? {
            Some(entry) => Ok(Some(CacheEntry { entry, kind })),
            None => Ok(None),
        }
    }

    /// Removes the key's record, expired or not, and returns whether there was one. The listener is told of it as `Remove`. Makes
    /// no entry.
    ///
    /// # Errors
    /// F9 if the handle count would pass its limit.
    #[inline]
    pub fn delete(&self, key: &K) -> Result<bool> {
        self.cache.delete(key)
    }

    /// Returns whether a `get` at `now` finds the key, and if so counts a use of its record. Takes no memory.
    ///
    /// # Errors
    /// F9 if the handle count would pass its limit.
    #[inline]
    pub fn touch(&self, now: u64, key: &K) -> Result<bool> {
        self.cache.touch(now, key)
    }

    /// Returns whether a `get` at `now` finds the key. It counts no use, and takes no memory.
    #[inline]
    pub fn contains(&self, now: u64, key: &K) -> bool {
        self.cache.contains(now, key)
    }
}
