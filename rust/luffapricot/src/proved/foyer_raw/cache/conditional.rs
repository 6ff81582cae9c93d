//! Inserts and removals that depend on what a key has.

// Written by rust/erase/erase.py from crates/foyer_raw/src/cache/conditional.rt: change that.
#[allow(unused_imports)]
use crate::rattle_std::prelude::*;
use super::RawCache;
use crate::proved::foyer_raw::counted::{At, RawInserted};
use crate::proved::foyer_raw::entry::RawCacheEntry;
use crate::proved::foyer_raw::expiry::expiring;
use crate::proved::foyer_raw::fetch::FetchTypes;
use crate::proved::foyer_raw::leaves::Leaves;
use crate::proved::foyer_raw::pipe::Pipe;
use crate::proved::foyer_raw::replaced::Replaced;
use crate::proved::foyer_raw::shares::Shares;
use crate::proved::foyer_core::{Data, Filter, Finder, InsertedOnto, Share, Weighter};
use crate::proved::foyer_policy::{Error, Event, EventListener, Eviction, HashBuilder, Key, Properties, Result, Value};
use crate::rattle_std::sync::Wait;

impl<H, E, K, V, S, P, W, A, L, Q, T, I> RawCache<H, E, K, V, S, P, W, A, L, Q, T, I>
where
    H: Wait,
    E: Eviction,
    K: Key,
    V: Value,
    S: HashBuilder,
    P: Properties,
    W: Weighter<K, V>,
    A: Filter<K, V>,
    L: EventListener<Key = K, Value = V>,
    I: Finder<K>,
    Q: Pipe<Key = K, Value = V, Properties = P>,
    T: FetchTypes<K, V, P>,
{
    /// Inserts a record as `insert_with_properties` does, if the key still has the record of `seen`, expired or not, or, for
    /// `None`, if a `get` at `now` finds none. If not, nothing is inserted, and the result is what a `get` at `now` finds: that
    /// counts as a use, but not among hits and misses. All of it is one step, under one lock.
    ///
    /// So a value is changed by a `get` and a `replace_if`, again until it has `Inserted`. A key never has the record of another
    /// key's entry, nor of another cache's, if the caches have different numbers (`RawCacheConfig`).
    ///
    /// # Errors
    /// Those of `insert_with_properties`, or of `get`.
    #[inline]
    pub fn replace_if(
        &self,
        now: u64,
        seen: Option<&RawCacheEntry<H, E, K, V, S, P, W, A, L, Q, T::Required, I>>,
        key: K,
        value: V,
        properties: P,
    ) -> Result<Replaced<RawCacheEntry<H, E, K, V, S, P, W, A, L, Q, T::Required, I>>> {
        let properties = expiring(properties, At::new(now), self.time_to_live);
        let kept = self.shares.shared.data(self.hash(&key), key, value, properties);
        let (shares, kept, spare) = self.ready(kept)?;
        let seen = match seen {
            Some(entry) => Some(entry.core()),
            None => None,
        };
        let shards = &self.shares.shared.shards;
        let mut leaves = Leaves::new(shards.alloc);
        let replaced = shards.lock(kept.hash()).replace_if(shards.alloc, At::new(now), seen, kept, &mut leaves);
        drop(spare);
        match replaced {
            Ok(Replaced::Inserted(made)) => Ok(Replaced::Inserted(self.entered(shares, made, leaves))),
            Ok(Replaced::Changed(Some(core))) => Ok(Replaced::Changed(Some(shares.entry(core)))),
            Ok(Replaced::Changed(None)) => Ok(Replaced::Changed(None)),
            Err(error) => Err(self.failed(error, leaves)),
        }
    }

    /// Inserts a record as `insert_with_properties` does, if its weight is at most its shard's capacity less what is pinned of
    /// other keys there. If not, nothing is inserted or evicted, and the result is `None`.
    ///
    /// # Errors
    /// Those of `insert_with_properties`.
    #[inline]
    pub fn insert_if_fits(
        &self,
        now: u64,
        key: K,
        value: V,
        properties: P,
    ) -> Result<Option<RawCacheEntry<H, E, K, V, S, P, W, A, L, Q, T::Required, I>>> {
        let properties = expiring(properties, At::new(now), self.time_to_live);
        let kept = self.shares.shared.data(self.hash(&key), key, value, properties);
        let (shares, kept, spare) = self.ready(kept)?;
        let shards = &self.shares.shared.shards;
        let mut leaves = Leaves::new(shards.alloc);
        let made = shards.lock(kept.hash()).insert_if_fits(shards.alloc, At::new(now), kept, &mut leaves);
        drop(spare);
        match made {
            Ok(Some(made)) => Ok(Some(self.entered(shares, made, leaves))),
            Ok(None) => Ok(None),
            Err(error) => Err(self.failed(error, leaves)),
        }
    }

    /// Inserts the record that a `get` at `now` finds again as `put` does, with another expiry (`None`: never, whatever the time to
    /// live) and a clone of its value, made under the shard's lock. Returns whether there is one. This counts as a use.
    ///
    /// The old record leaves as `Replace`, unless the insert evicts it. Weigher and filter aren't asked. All of it is one step, under
    /// one lock.
    ///
    /// # Errors
    /// F9 if the handle count would pass its limit; after the use those of `insert_with_properties`, F7 also if a clone fails.
    #[inline]
    pub fn set_expires(&self, now: u64, key: &K, expires: Option<u64>) -> Result<bool>
    where
        V: TryClone,
        P: TryClone,
    {
        let shards = &self.shares.shared.shards;
        let (key, mut leaves) = (self.hashed(key), Leaves::new(shards.alloc));
        let put = self.shares.of(&key).set_expires(shards.alloc, At::new(now), key, expires, &mut leaves);
        match put {
            Ok(Some(put)) => {
                self.was_put(put, leaves);
                Ok(true)
            }
            Ok(None) => Ok(false),
            Err(error) => Err(self.failed(error, leaves)),
        }
    }

    /// Removes the entry's record, expired or not, if its key still has it, and returns whether it had. The listener is told of
    /// it as `Remove`. The entry stays held.
    ///
    /// A record of another cache isn't removed, if the caches have different numbers (`RawCacheConfig`).
    #[inline]
    pub fn remove_this(&self, entry: &RawCacheEntry<H, E, K, V, S, P, W, A, L, Q, T::Required, I>) -> bool {
        let core = entry.core();
        let taken = self.shares.lock(core.hash()).remove_this(core);
        match taken {
            Some(left) => {
                self.shares.tell((Event::Remove, left));
                true
            }
            None => false,
        }
    }

    // What an insert needs before the lock: shares for its entry, and two shares of its data. The second one is dropped after the
    // lock, so that no key or value is dropped under it.
    #[inline(always)]
    fn ready(
        &self,
        kept: Data<K, V, P>,
    ) -> Result<(Shares<H, E, K, V, S, P, W, A, L, Q, T::Required, I>, Share<K, V, P>, Share<K, V, P>)> {
        let shards = &self.shares.shared.shards;
        let kept = match Share::new(shards.alloc, kept) {
            Ok(kept) => kept,
            Err(kept) => {
                let (key, properties) = (&kept.key, &kept.properties);
                return Err(shards.refuse_insert(kept.hash, key, properties, kept.weight));
            }
        };
        if let Some(spare) = kept.another() {
            if let Ok(shares) = self.shares_of(kept.hash()) {
                return Ok((shares, kept, spare));
            }
        }
        let (key, properties) = (kept.key(), kept.properties());
        Err(shards.refuse_insert(kept.hash(), key, properties, kept.weight()))
    }

    // The entry of an insert, after the waiting callers got their results and what left was told.
    #[inline]
    pub(crate) fn entered(
        &self,
        shares: Shares<H, E, K, V, S, P, W, A, L, Q, T::Required, I>,
        made: RawInserted<K, V, P>,
        leaves: Leaves<K, V, P>,
    ) -> RawCacheEntry<H, E, K, V, S, P, W, A, L, Q, T::Required, I> {
        let InsertedOnto { entry, answers } = made;
        self.shares.answer(answers);
        self.shares.tell_leaves(leaves);
        shares.entry(entry)
    }

    // The error of an insert, after what left all the same was told.
    #[inline]
    pub(crate) fn failed(&self, error: Error, leaves: Leaves<K, V, P>) -> Error {
        self.shares.tell_leaves(leaves);
        error
    }
}
