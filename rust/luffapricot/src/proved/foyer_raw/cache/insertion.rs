//! Inserts.

// Written by rust/erase/erase.py from crates/foyer_raw/src/cache/insertion.rt: change that.
#[allow(unused_imports)]
use crate::rattle_std::prelude::*;
use super::RawCache;
use crate::proved::foyer_raw::counted::{At, RawPut};
use crate::proved::foyer_raw::entry::RawCacheEntry;
use crate::proved::foyer_raw::expiry::expiring;
use crate::proved::foyer_raw::fetch::FetchTypes;
use crate::proved::foyer_raw::leaves::Leaves;
use crate::proved::foyer_raw::pipe::Pipe;
use crate::proved::foyer_raw::shares::Shares;
use crate::proved::foyer_core::{CoreEntry, Filter, Finder, Piece, PutOnto, Share, Weighter};
use crate::proved::foyer_policy::{
    Error, EventListener, Eviction, HashBuilder, Key, Properties, Reason, Result, Source, Value,
};
use crate::rattle_std::sync::Wait;

impl<H, E, K, V, S, P, W, A, L, Q, T, I> RawCache<H, E, K, V, S, P, W, A, L, Q, T, I>
where
    H: Wait,
    E: Eviction,
    K: Key,
    V: Value,
    S: HashBuilder,
    P: Properties,
    W: Weighter<K, V>,
    A: Filter<K, V>,
    L: EventListener<Key = K, Value = V>,
    I: Finder<K>,
    Q: Pipe<Key = K, Value = V, Properties = P>,
    T: FetchTypes<K, V, P>,
{
    /// Inserts a value with default properties and returns an entry of its record.
    ///
    /// # Errors
    /// Those of `insert_with_properties`.
    #[inline]
    pub fn insert(
        &self,
        now: u64,
        key: K,
        value: V,
    ) -> Result<RawCacheEntry<H, E, K, V, S, P, W, A, L, Q, T::Required, I>> {
        self.insert_with_properties(now, key, value, P::default())
    }

    /// Inserts a record and returns an entry of it.
    ///
    /// The weighter is asked, and then the filter, before the shard is locked. Evicts records that are expired at `now`,
    /// then the policy's victims, until the record fits. Callers that wait for a fetch of the key get this record.
    ///
    /// # Errors
    /// F10 if no id is left, F9 if the handle count would pass its limit, F8 if the record's weight and the pinned weight
    /// of other keys would overflow; nothing has changed. F7 if memory runs out; the evictions made so far stand and are
    /// reported.
    #[inline]
    pub fn insert_with_properties(
        &self,
        now: u64,
        key: K,
        value: V,
        properties: P,
    ) -> Result<RawCacheEntry<H, E, K, V, S, P, W, A, L, Q, T::Required, I>> {
        let hash = self.hash(&key);
        let properties = expiring(properties, At::new(now), self.time_to_live);
        let kept = self.shares.shared.data(hash, key, value, properties);
        let shards = &self.shares.shared.shards;
        match Share::new(shards.alloc, kept) {
            Ok(kept) => self.insert_share(now, hash, kept),
            Err(kept) => Err(shards.refuse_insert(hash, &kept.key, &kept.properties, kept.weight)),
        }
    }

    // Inserts a record with this share of its data, whose key has this hash. All that it needs is made before the lock.
    #[inline(always)]
    fn insert_share(
        &self,
        now: u64,
        hash: u64,
        kept: Share<K, V, P>,
    ) -> Result<RawCacheEntry<H, E, K, V, S, P, W, A, L, Q, T::Required, I>> {
        let shards = &self.shares.shared.shards;
        let Ok(shares) = self.shares_of(hash) else {
            let (key, properties) = (kept.key(), kept.properties());
            return Err(shards.refuse_insert(hash, key, properties, kept.weight()));
        };
        let Some(mut entry) = CoreEntry::of_share(&kept, Source::Outer, false) else {
            let (key, properties) = (kept.key(), kept.properties());
            return Err(shards.refuse_insert(hash, key, properties, kept.weight()));
        };
        let (mut leaves, mut later) = (Leaves::new(shards.alloc), None);
        let placed = shards.lock(kept.hash()).place(At::new(now), kept, &mut entry, &mut leaves, &mut later);
        if let Some(kept) = later {
            entry.discard();
            return self.insert_answering(now, shares, kept);
        }
        self.shares.tell_leaves(leaves);
        match placed {
            Ok(()) => Ok(shares.entry(entry)),
            Err(error) => {
                entry.discard();
                Err(error)
            }
        }
    }

    // Inserts a record with this share of its data while fetches are open.
    #[cold]
    #[inline(never)]
    fn insert_answering(
        &self,
        now: u64,
        shares: Shares<H, E, K, V, S, P, W, A, L, Q, T::Required, I>,
        kept: Share<K, V, P>,
    ) -> Result<RawCacheEntry<H, E, K, V, S, P, W, A, L, Q, T::Required, I>> {
        let shards = &self.shares.shared.shards;
        let mut leaves = Leaves::new(shards.alloc);
        let made = shards.lock(kept.hash()).emplace(shards.alloc, At::new(now), kept, &mut leaves);
        match made {
            Ok(made) => Ok(self.entered(shares, made, leaves)),
            Err(error) => Err(self.failed(error, leaves)),
        }
    }

    /// Inserts a value with default properties, as `put_with_properties` does.
    ///
    /// # Errors
    /// Those of `insert_with_properties`.
    #[inline]
    pub fn put(&self, now: u64, key: K, value: V) -> Result<()> {
        self.put_with_properties(now, key, value, P::default())
    }

    /// Inserts a record as `insert_with_properties` does, and makes no entry of it: an insert and the drop of its entry in one
    /// step, under one lock.
    ///
    /// # Errors
    /// Those of `insert_with_properties`.
    #[inline]
    pub fn put_with_properties(&self, now: u64, key: K, value: V, properties: P) -> Result<()> {
        let properties = expiring(properties, At::new(now), self.time_to_live);
        let kept = self.shares.shared.data(self.hash(&key), key, value, properties);
        let shards = &self.shares.shared.shards;
        match Share::new(shards.alloc, kept) {
            Ok(kept) => self.put_share(now, kept),
            Err(kept) => Err(shards.refuse_insert(kept.hash, &kept.key, &kept.properties, kept.weight)),
        }
    }

    // Inserts a record with this share of its data, and makes no entry of it.
    #[inline(always)]
    fn put_share(&self, now: u64, kept: Share<K, V, P>) -> Result<()> {
        let shards = &self.shares.shared.shards;
        let (mut leaves, mut later) = (Leaves::new(shards.alloc), None);
        let put = shards.lock(kept.hash()).put(At::new(now), kept, &mut leaves, &mut later);
        if let Some(kept) = later {
            return self.put_answering(now, kept);
        }
        self.shares.tell_leaves(leaves);
        if let Some(last) = put? {
            self.shares.tell(last);
        }
        Ok(())
    }

    // Inserts a record with this share of its data while fetches are open, and makes no entry of it.
    #[cold]
    #[inline(never)]
    fn put_answering(&self, now: u64, kept: Share<K, V, P>) -> Result<()> {
        let shards = &self.shares.shared.shards;
        let mut leaves = Leaves::new(shards.alloc);
        let put = shards.lock(kept.hash()).put_answering(shards.alloc, At::new(now), kept, &mut leaves);
        match put {
            Ok(put) => Ok(self.was_put(put, leaves)),
            Err(error) => Err(self.failed(error, leaves)),
        }
    }

    // Gives the waiting callers their results, and then tells what left with a put.
    #[inline]
    pub(crate) fn was_put(&self, put: RawPut<K, V, P>, leaves: Leaves<K, V, P>) {
        let PutOnto { answers, last } = put;
        self.shares.answer(answers);
        self.shares.tell_leaves(leaves);
        if let Some(last) = last {
            self.shares.tell(last);
        }
    }

    /// Inserts the record of a piece and returns an entry of it, with the source `Memory`.
    ///
    /// A piece of this cache stands for its own record. Any other piece makes a new record, which the weighter weighs.
    ///
    /// # Errors
    /// Those of `insert_with_properties`.
    #[inline]
    pub fn insert_piece(
        &self,
        now: u64,
        piece: Piece<K, V, P>,
    ) -> Result<RawCacheEntry<H, E, K, V, S, P, W, A, L, Q, T::Required, I>> {
        let hash = self.hash(piece.key());
        let shares = self.shares_of(hash);
        let shared = &self.shares.shared;
        let weight = shared.weight_of(hash, &piece);
        let shares = match shares {
            Ok(shares) => shares,
            Err(refused) => {
                let reason = self.shares.lock(hash).refuse_piece(hash, weight, &piece);
                return Err(first_of(reason, refused));
            }
        };
        let alloc = shared.shards.alloc;
        let mut leaves = Leaves::new(alloc);
        let made = self.shares.lock(hash).emplace_piece(alloc, At::new(now), piece, hash, weight, &mut leaves);
        match made {
            Ok(made) => Ok(self.entered(shares, made, leaves)),
            Err(error) => Err(self.failed(error, leaves)),
        }
    }
}

// Returns the reason that comes first, if there is one, or else the F7.
#[inline]
fn first_of(reason: Option<Reason>, refused: Error) -> Error {
    match reason {
        Some(reason) => Error::new(reason),
        None => refused,
    }
}
