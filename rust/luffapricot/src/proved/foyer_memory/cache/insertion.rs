//! Inserts, and inserts and removals that depend on what a key has.

// Written by rust/erase/erase.py from crates/foyer_memory/src/cache/insertion.rt: change that.
#[allow(unused_imports)]
use crate::rattle_std::prelude::*;
use super::Cache;
use crate::proved::foyer_memory::entry::CacheEntry;
use crate::proved::foyer_core::{Filter, Finder, Piece, Weighter};
use crate::proved::foyer_policy::{EventListener, HashBuilder, Key, Properties, Result, Value};
use crate::proved::foyer_raw::{FetchTypes, Pipe, Replaced};
use crate::rattle_std::sync::Wait;

impl<H, K, V, S, P, W, A, L, Q, T, I> Cache<H, K, V, S, P, W, A, L, Q, T, I>
where
    H: Wait,
    K: Key,
    V: Value,
    S: HashBuilder,
    P: Properties,
    W: Weighter<K, V>,
    A: Filter<K, V>,
    L: EventListener<Key = K, Value = V>,
    I: Finder<K>,
    Q: Pipe<Key = K, Value = V, Properties = P>,
    T: FetchTypes<K, V, P>,
{
    /// Inserts a value with default properties and returns an entry of its record.
    ///
    /// # Errors
    /// Those of `insert_with_properties`.
    #[inline]
    pub fn insert(&self, now: u64, key: K, value: V) -> Result<CacheEntry<H, K, V, S, P, W, A, L, Q, T, I>> {
        let (entry, kind) = (self.cache.insert(now, key, value)?, self.kind);
        Ok(CacheEntry { entry, kind })
    }

    /// Inserts a record and returns an entry of it.
    ///
    /// The weighter is asked, and then the filter, before the shard is locked. Evicts records that are expired at `now`,
    /// then the policy's victims, until the record fits. Callers that wait for a fetch of the key get this record.
    ///
    /// # Errors
    /// F10 if no id is left, F9 if the handle count would pass its limit, F8 if the record's weight and the pinned weight
    /// of other keys would overflow; nothing has changed. F7 if memory runs out; the evictions made so far stand and are
    /// reported.
    #[inline]
    pub fn insert_with_properties(
        &self,
        now: u64,
        key: K,
        value: V,
        properties: P,
    ) -> Result<CacheEntry<H, K, V, S, P, W, A, L, Q, T, I>> {
        let kind = self.kind;
        let entry = self.cache.insert_with_properties(now, key, value, properties)?;
        Ok(CacheEntry { entry, kind })
    }

    /// Inserts a value with default properties, as `put_with_properties` does.
    ///
    /// # Errors
    /// Those of `insert_with_properties`.
    #[inline]
    pub fn put(&self, now: u64, key: K, value: V) -> Result<()> {
        self.cache.put(now, key, value)
    }

    /// Inserts a record as `insert_with_properties` does, and makes no entry of it: an insert and the drop of its entry in one
    /// step, under one lock.
    ///
    /// # Errors
    /// Those of `insert_with_properties`.
    #[inline]
    pub fn put_with_properties(&self, now: u64, key: K, value: V, properties: P) -> Result<()> {
        self.cache.put_with_properties(now, key, value, properties)
    }

    /// Inserts the record of a piece and returns an entry of it, with the source `Memory`.
    ///
    /// A piece of this cache stands for its own record. Any other piece makes a new record, which the weighter weighs.
    ///
    /// # Errors
    /// Those of `insert_with_properties`.
    #[inline]
    pub fn insert_piece(&self, now: u64, piece: Piece<K, V, P>) -> Result<CacheEntry<H, K, V, S, P, W, A, L, Q, T, I>> {
        let (entry, kind) = (self.cache.insert_piece(now, piece)?, self.kind);
        Ok(CacheEntry { entry, kind })
    }

    /// Inserts a record as `insert_with_properties` does, if the key still has the record of `seen`, expired or not, or, for
    /// `None`, if a `get` at `now` finds none. If not, nothing is inserted, and the result is what a `get` at `now` finds: that
    /// counts as a use, but not among hits and misses. All of it is one step, under one lock.
    ///
    /// So a value is changed by a `get` and a `replace_if`, again until it has `Inserted`. A key never has the record of another
    /// key's entry, nor of another cache's, if the caches have different numbers (`with_number`).
    ///
    /// # Errors
    /// Those of `insert_with_properties`, or of `get`.
    #[inline]
    pub fn replace_if(
        &self,
        now: u64,
        seen: Option<&CacheEntry<H, K, V, S, P, W, A, L, Q, T, I>>,
        key: K,
        value: V,
        properties: P,
    ) -> Result<Replaced<CacheEntry<H, K, V, S, P, W, A, L, Q, T, I>>> {
        let kind = self.kind;
        let seen = match seen {
            Some(entry) => Some(&entry.entry),
            None => None,
        };
        match self.cache.replace_if(now, seen, key, value, properties)? {
            Replaced::Inserted(entry) => Ok(Replaced::Inserted(CacheEntry { entry, kind })),
            Replaced::Changed(Some(entry)) => Ok(Replaced::Changed(Some(CacheEntry { entry, kind }))),
            Replaced::Changed(None) => Ok(Replaced::Changed(None)),
        }
    }

    /// Inserts a record as `insert_with_properties` does, if its weight is at most its shard's capacity less what is pinned of
    /// other keys there. If not, nothing is inserted or evicted, and the result is `None`.
    ///
    /// # Errors
    /// Those of `insert_with_properties`.
    #[inline]
    pub fn insert_if_fits(
        &self,
        now: u64,
        key: K,
        value: V,
        properties: P,
    ) -> Result<Option<CacheEntry<H, K, V, S, P, W, A, L, Q, T, I>>> {
        let kind = self.kind;
        match self.cache.insert_if_fits(now, key, value, properties)? {
            Some(entry) => Ok(Some(CacheEntry { entry, kind })),
            None => Ok(None),
        }
    }

    /// Inserts the record that a `get` at `now` finds again as `put` does, with another expiry (`None`: never, whatever the time to
    /// live) and a clone of its value, made under the shard's lock. Returns whether there is one. This counts as a use.
    ///
    /// The old record leaves as `Replace`, unless the insert evicts it. Weigher and filter aren't asked. All of it is one step, under
    /// one lock.
    ///
    /// # Errors
    /// F9 if the handle count would pass its limit; after the use those of `insert_with_properties`, F7 also if a clone fails.
    #[inline]
    pub fn set_expires(&self, now: u64, key: &K, expires: Option<u64>) -> Result<bool>
    where
        V: TryClone,
        P: TryClone,
    {
        self.cache.set_expires(now, key, expires)
    }

    /// Removes the entry's record, expired or not, if its key still has it, and returns whether it had. The listener is told of
    /// it as `Remove`. The entry stays held.
    ///
    /// A record of another cache isn't removed, if the caches have different numbers (`with_number`).
    #[inline]
    pub fn remove_this(&self, entry: &CacheEntry<H, K, V, S, P, W, A, L, Q, T, I>) -> bool {
        self.cache.remove_this(&entry.entry)
    }
}
