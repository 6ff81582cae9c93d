//! Fetches of missing keys.

// Written by rust/erase/erase.py from crates/foyer_core/src/shard/fetches.rt: change that.
#[allow(unused_imports)]
use crate::rattle_std::prelude::*;
use super::Shard;
use crate::proved::foyer_core::finder::Finder;
use crate::proved::foyer_core::inflight::{Enqueue, FetchOrTake};
use crate::proved::foyer_core::outcome::{Ended, Further, Lookup};
use crate::proved::foyer_core::piece::Piece;
use crate::proved::foyer_core::record::Data;
use crate::proved::foyer_policy::{Error, Eviction, Key, Properties, Reason, Result, Source, Value};
use crate::rattle_std::alloc::Global;

impl<E: Eviction, K: Key, V: Value, P: Properties, N, R, I: Finder<K>> Shard<E, K, V, P, N, R, I> {
    /// Returns an entry as `get` does at `now`, or a token to wait with if the key is missing.
    ///
    /// If the key has no open fetch, one is opened and the caller leads it. Otherwise the caller waits for that one,
    /// and its builder is kept if the fetch has none. A clone of the key must equal it.
    ///
    /// # Errors
    /// On a hit, those of `get`. On a miss, F10 if no number is left and F7 if memory runs out. Nothing has changed.
    #[inline]
    pub fn get_or_enqueue(
        &mut self,
        now: u64,
        hash: u64,
        key: &K,
        required: Option<R>,
        waiter: N,
    ) -> Result<Lookup<K, V, P, R>> {
        match self.get(now, hash, key) {
            Ok(None) => self.enqueue(now, hash, key, required, waiter),
            Ok(Some(entry)) => Ok(Lookup::Hit(entry)),
            Err(error) => Err(error),
        }
    }

    // Enters a caller that asks for a missing key.
    #[inline]
    fn enqueue(&mut self, now: u64, hash: u64, key: &K, required: Option<R>, waiter: N) -> Result<Lookup<K, V, P, R>> {
        let ids = self.store.ids();
        if self.inflights.lacks(hash, key, ids) {
            return Err(Error::new(Reason::Ids));
        }
        let Ok(own) = key.try_clone() else {
            return Err(Error::new(Reason::NoMemory));
        };
        match self.inflights.enqueue(now, hash, own, required, waiter, ids) {
            Ok(Enqueue::Lead { id, token, required_fetch_builder }) => {
                Ok(Lookup::Lead { fetch: id, token, required: required_fetch_builder })
            }
            Ok(Enqueue::Wait { token }) => Ok(Lookup::Wait { token }),
            Err(error) => Err(error),
        }
    }

    /// Returns whether this fetch of a key is open. Takes no memory.
    ///
    /// A key has at most one open fetch. If it has one and is resident, its record was expired when the fetch was
    /// opened.
    #[inline]
    pub fn is_open(&self, hash: u64, key: &K, fetch: u64) -> bool {
        self.inflights.is_open(hash, key, fetch)
    }

    /// Takes the builder that an open fetch keeps, to go on with after the fetch found nothing. If it keeps none,
    /// closes the fetch and returns its waiters.
    ///
    /// Returns `None` if the fetch isn't open. Takes no memory.
    #[inline]
    pub fn fetch_or_take(&mut self, hash: u64, key: &K, fetch: u64) -> Option<FetchOrTake<R, N>> {
        self.inflights.fetch_or_take(hash, key, fetch)
    }

    /// Ends an open fetch of a key with an error, which its waiters get. If the fetch isn't open, nothing changes.
    /// Takes no memory.
    #[inline]
    pub fn end(&mut self, alloc: Global, hash: u64, key: &K, fetch: u64, error: Error) -> Ended<K, V, P, N> {
        match self.inflights.take(hash, key, Some(fetch)) {
            Some(waiters) => Ended::found(waiters, Err(error), Vec::new(alloc)),
            None => Ended::lost(alloc),
        }
    }

    /// Ends an open fetch of a key with a new record of it, which is inserted at `now` as by `emplace`, with a handle
    /// for each waiter and none beside.
    ///
    /// If the insert fails, the waiters get its error, and the fetch is closed all the same. If the fetch isn't open,
    /// nothing changes. A clone of the key must equal it.
    #[inline]
    pub fn complete(
        &mut self,
        alloc: Global,
        now: u64,
        fetch: u64,
        kept: Data<K, V, P>,
        source: Source,
    ) -> Ended<K, V, P, N> {
        let Some(waiters) = self.inflights.take(kept.hash, &kept.key, Some(fetch)) else {
            return Ended::lost(alloc);
        };
        let further = Further { count: waiters.len() - 1, room: 1 };
        let mut leaves = Vec::new(alloc);
        let came = self.store.emplace_data(alloc, now, kept, source, further, &mut leaves);
        Ended::found(waiters, came, leaves)
    }

    /// Ends an open fetch of a key with a piece, whose key has the hash `own`, as `complete` does.
    ///
    /// `is_home` says whether this is the shard of `own`. If it is, and the piece's record has this hash and an equal
    /// key, it is inserted as by `emplace_piece`, with this weight if the shard doesn't know the piece. Otherwise the
    /// waiters get F12.
    #[inline]
    pub fn complete_piece(
        &mut self,
        alloc: Global,
        now: u64,
        hash: u64,
        key: &K,
        fetch: u64,
        piece: Piece<K, V, P>,
        own: u64,
        is_home: bool,
        weight: usize,
    ) -> Ended<K, V, P, N> {
        let Some(waiters) = self.inflights.take(hash, key, Some(fetch)) else {
            return Ended::lost(alloc);
        };
        let mut leaves = Vec::new(alloc);
        if !self.is_under(own, &piece, is_home, hash, key) {
            let wrong = Error::new(Reason::WrongKey);
            return Ended::found(waiters, Err(wrong), leaves);
        }
        let further = Further { count: waiters.len() - 1, room: 1 };
        let came = self.store.emplace_piece(alloc, now, piece, own, weight, further, &mut leaves);
        Ended::found(waiters, came, leaves)
    }

    // Whether a piece, whose key has the hash `own`, is inserted under this hash and a key that equals this one.
    // `is_home` says whether this is the shard of `own`.
    #[inline]
    fn is_under(&self, own: u64, piece: &Piece<K, V, P>, is_home: bool, hash: u64, key: &K) -> bool {
        if !is_home {
            return false;
        }
        let (under, other) = self.store.key_under(own, piece);
        hash == under && *key == *other
    }

    /// Ends an open fetch of a key with a value whose key couldn't be cloned: the waiters get the error that an
    /// insert would have, and F7 if it would have none.
    #[inline]
    pub fn refuse_value(
        &mut self,
        alloc: Global,
        hash: u64,
        key: &K,
        fetch: u64,
        properties: &P,
        weight: usize,
    ) -> Ended<K, V, P, N> {
        let Some(waiters) = self.inflights.take(hash, key, Some(fetch)) else {
            return Ended::lost(alloc);
        };
        let further = waiters.len() - 1;
        let error = self.store.out_of_memory(hash, key, properties, weight, further);
        Ended::found(waiters, Err(error), Vec::new(alloc))
    }
}
