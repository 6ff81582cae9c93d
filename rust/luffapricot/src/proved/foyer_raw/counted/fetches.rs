//! Calls that begin and end fetches.

// Written by rust/erase/erase.py from crates/foyer_raw/src/counted/fetches.rt: change that.
#[allow(unused_imports)]
use crate::rattle_std::prelude::*;
use super::counts::{count_ask, count_ended};
use super::{At, CountedShard, Hashed};
use crate::proved::foyer_raw::ticket::{Answer, Notifier};
use crate::proved::foyer_core::{Data, Ended, FetchOrTake, Finder, Lookup, Piece};
use crate::proved::foyer_policy::{Error, Eviction, Key, Properties, Result, Source, Value};
use crate::rattle_std::alloc::Global;

/// The end of a fetch.
pub type RawEnded<K, V, P> = Ended<K, V, P, Notifier<Answer<K, V, P>>>;

/// What is to be done if a fetch found nothing.
pub type Later<K, V, P, R> = FetchOrTake<R, Notifier<Answer<K, V, P>>>;

impl<E: Eviction, K: Key, V: Value, P: Properties, R, I: Finder<K>> CountedShard<E, K, V, P, R, I> {
    /// Returns an entry of what a `get` at a time finds, or else a token: for a new fetch, or for the one that is open. Counts
    /// a hit, or a miss and which of both.
    #[inline]
    pub fn get_or_enqueue(
        &mut self,
        now: At,
        key: Hashed<'_, K>,
        required: Option<R>,
        waiter: Notifier<Answer<K, V, P>>,
    ) -> Result<Lookup<K, V, P, R>> {
        let look = self.shard.get_or_enqueue(now.0, key.hash, key.key, required, waiter);
        count_ask(&mut self.stats, &look);
        look
    }

    /// Returns whether this fetch of a key is open.
    #[inline]
    pub fn is_open(&self, key: Hashed<'_, K>, fetch: u64) -> bool {
        self.shard.is_open(key.hash, key.key, fetch)
    }

    /// Takes the builder that an open fetch keeps, or closes it and returns its waiters.
    #[inline]
    pub fn fetch_or_take(&mut self, key: Hashed<'_, K>, fetch: u64) -> Option<Later<K, V, P, R>> {
        self.shard.fetch_or_take(key.hash, key.key, fetch)
    }

    /// Ends an open fetch of a key with an error. Nothing is counted.
    #[inline]
    pub fn end(&mut self, alloc: Global, key: Hashed<'_, K>, fetch: u64, error: Error) -> RawEnded<K, V, P> {
        self.shard.end(alloc, key.hash, key.key, fetch, error)
    }

    /// Ends an open fetch with a record of its key, which is inserted at a time.
    #[inline]
    pub fn complete(
        &mut self,
        alloc: Global,
        now: At,
        fetch: u64,
        kept: Data<K, V, P>,
        source: Source,
    ) -> RawEnded<K, V, P> {
        let ended = self.shard.complete(alloc, now.0, fetch, kept, source);
        count_ended(&mut self.stats, now.0, &ended);
        ended
    }

    /// Ends an open fetch of a key with a piece, whose key has the hash `own`, which is inserted at a time. `is_home` says
    /// whether this is the shard of `own`.
    #[inline]
    pub fn complete_piece(
        &mut self,
        alloc: Global,
        now: At,
        key: Hashed<'_, K>,
        fetch: u64,
        piece: Piece<K, V, P>,
        own: u64,
        is_home: bool,
        weight: usize,
    ) -> RawEnded<K, V, P> {
        let ended = self.shard.complete_piece(alloc, now.0, key.hash, key.key, fetch, piece, own, is_home, weight);
        count_ended(&mut self.stats, now.0, &ended);
        ended
    }
}
