//! Look-ups by a key.

// Written by rust/erase/erase.py from crates/foyer_raw/src/cache/keys.rt: change that.
#[allow(unused_imports)]
use crate::rattle_std::prelude::*;
use super::RawCache;
use crate::proved::foyer_raw::counted::{At, Hashed};
use crate::proved::foyer_raw::entry::RawCacheEntry;
use crate::proved::foyer_raw::fetch::FetchTypes;
use crate::proved::foyer_raw::pipe::Pipe;
use crate::proved::foyer_raw::shares::Shares;
use crate::proved::foyer_core::{Finder, Got};
use crate::proved::foyer_policy::{
    Error, Event, EventListener, Eviction, HashBuilder, Key, Properties, Reason, Result, Value,
};
use crate::rattle_std::sync::Wait;

impl<H, E, K, V, S, P, W, A, L, Q, T, I> RawCache<H, E, K, V, S, P, W, A, L, Q, T, I>
where
    H: Wait,
    E: Eviction,
    K: Key,
    V: Value,
    S: HashBuilder,
    P: Properties,
    L: EventListener<Key = K, Value = V>,
    I: Finder<K>,
    Q: Pipe<Key = K, Value = V, Properties = P>,
    T: FetchTypes<K, V, P>,
{
    /// Returns the hash of a key, as the hash builder makes it. Equal keys have equal hashes.
    #[inline]
    pub fn hash(&self, key: &K) -> u64 {
        self.shares.shared.hash_builder.hash_one(key)
    }

    // A key with its hash.
    #[inline(always)]
    pub(crate) fn hashed<'a>(&self, key: &'a K) -> Hashed<'a, K> {
        Hashed::new(self.hash(key), key)
    }

    /// Returns an entry of the key's record, unless that is expired at `now`. This counts as a use.
    ///
    /// Allocates nothing.
    ///
    /// # Errors
    /// F9 if the handle count would pass its limit, F7 if a reference count is full.
    #[inline]
    pub fn get(
        &self,
        now: u64,
        key: &K,
    ) -> Result<Option<RawCacheEntry<H, E, K, V, S, P, W, A, L, Q, T::Required, I>>> {
        let key = self.hashed(key);
        let hash = key.hash();
        let found = self.shares.of(&key).get(At::new(now), key);
        self.entry_found(hash, found)
    }

    /// Calls `look` with the value that a `get` at `now` would find, counts a use of its record, and returns what `look`
    /// returned. Makes no entry, and takes one lock.
    ///
    /// `look` runs under that lock: it must not call the cache, and should be short.
    ///
    /// # Errors
    /// F9 if the handle count would pass its limit.
    #[inline(always)]
    pub fn read<X, F: FnOnce(&V) -> X>(&self, now: u64, key: &K, look: F) -> Result<Option<X>> {
        let key = self.hashed(key);
        self.shares.of(&key).read(At::new(now), key, look)
    }

    /// Calls `look` as `read` does, and counts no use. A `peek` isn't counted among hits and misses either.
    #[inline(always)]
    pub fn peek<X, F: FnOnce(&V) -> X>(&self, now: u64, key: &K, look: F) -> Option<X> {
        let key = self.hashed(key);
        self.shares.of(&key).peek(At::new(now), key, look)
    }

    /// Returns a copy of the value that a `get` at `now` would find. This counts as a use, as `read` does.
    ///
    /// # Errors
    /// F9 if the handle count would pass its limit.
    #[inline(always)]
    pub fn get_copied(&self, now: u64, key: &K) -> Result<Option<V>>
    where
        V: Copy,
    {
        self.read(now, key, |value| *value)
    }

    /// Returns a clone of the value that a `get` at `now` would find, made under the shard's lock. This counts as a use, as
    /// `read` does.
    ///
    /// # Errors
    /// F9 if the handle count would pass its limit, F7 if the clone fails, which still counts as a use.
    #[inline(always)]
    pub fn get_cloned(&self, now: u64, key: &K) -> Result<Option<V>>
    where
        V: TryClone,
    {
        match self.read(now, key, |value| value.try_clone())? {
            Some(Ok(clone)) => Ok(Some(clone)),
            Some(Err(_)) => Err(Error::new(Reason::NoMemory)),
            None => Ok(None),
        }
    }

    // An entry as `get` returns it. A miss is not counted, since another look-up follows it.
    #[inline]
    pub(crate) fn get_first(
        &self,
        now: At,
        key: Hashed<'_, K>,
    ) -> Result<Option<RawCacheEntry<H, E, K, V, S, P, W, A, L, Q, T::Required, I>>> {
        let hash = key.hash();
        let found = self.shares.of(&key).get_first(now, key);
        self.entry_found(hash, found)
    }

    // The entry of what was found of a key with this hash. The handle is given back if the cache can't be shared once more (F7).
    #[inline(always)]
    fn entry_found(
        &self,
        hash: u64,
        found: Got<K, V, P>,
    ) -> Result<Option<RawCacheEntry<H, E, K, V, S, P, W, A, L, Q, T::Required, I>>> {
        match found {
            Got::Hit(core) => match self.shares_of(hash) {
                Ok(shares) => Ok(Some(shares.entry(core))),
                Err(refused) => {
                    self.shares.give_back(core);
                    Err(refused)
                }
            },
            Got::Miss => Ok(None),
            Got::Full => Err(Error::new(Reason::Handles)),
            Got::OutOfMemory => Err(Error::new(Reason::NoMemory)),
        }
    }

    /// Removes the key's record, expired or not, and returns an entry of it. The listener is told of it as `Remove`.
    ///
    /// # Errors
    /// Those of `get`.
    #[inline]
    pub fn remove(&self, key: &K) -> Result<Option<RawCacheEntry<H, E, K, V, S, P, W, A, L, Q, T::Required, I>>> {
        let key = self.hashed(key);
        let shares = self.shares_for(key.again())?;
        let taken = self.shares.of(&key).remove(key)?;
        match taken {
            Some((core, left)) => {
                self.shares.tell((Event::Remove, left));
                Ok(Some(shares.entry(core)))
            }
            None => Ok(None),
        }
    }

    /// Removes the key's record, expired or not, and returns whether there was one. The listener is told of it as `Remove`. Makes
    /// no entry.
    ///
    /// # Errors
    /// F9 if the handle count would pass its limit.
    #[inline]
    pub fn delete(&self, key: &K) -> Result<bool> {
        let key = self.hashed(key);
        let taken = self.shares.of(&key).delete(key)?;
        match taken {
            Some(left) => {
                self.shares.tell((Event::Remove, left));
                Ok(true)
            }
            None => Ok(false),
        }
    }

    // Shares for an entry of the key's record. If a reference count is full (F7), an F9 of the shard comes first.
    #[inline]
    fn shares_for(&self, key: Hashed<'_, K>) -> Result<Shares<H, E, K, V, S, P, W, A, L, Q, T::Required, I>> {
        let refused = match self.shares_of(key.hash()) {
            Ok(shares) => return Ok(shares),
            Err(refused) => refused,
        };
        let reason = self.shares.of(&key).refuses_get(key);
        match reason {
            Some(reason) => Err(Error::new(reason)),
            None => Err(refused),
        }
    }

    /// Returns whether a `get` at `now` finds the key, and if so counts a use of its record. Takes no memory.
    ///
    /// # Errors
    /// F9 if the handle count would pass its limit.
    #[inline]
    pub fn touch(&self, now: u64, key: &K) -> Result<bool> {
        let key = self.hashed(key);
        self.shares.of(&key).touch(At::new(now), key)
    }

    /// Returns whether a `get` at `now` finds the key. It counts no use, and takes no memory.
    #[inline]
    pub fn contains(&self, now: u64, key: &K) -> bool {
        let key = self.hashed(key);
        self.shares.of(&key).contains(At::new(now), key)
    }
}
