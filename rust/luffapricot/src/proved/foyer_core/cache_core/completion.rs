//! Fetches that end with a record of their key.

// Written by rust/erase/erase.py from crates/foyer_core/src/cache_core/completion.rt: change that.
#[allow(unused_imports)]
use crate::rattle_std::prelude::*;
use super::CacheCore;
use super::load::Load;
use crate::proved::foyer_core::filter::Filter;
use crate::proved::foyer_core::finder::Finder;
use crate::proved::foyer_core::outcome::{Ended, FetchTarget};
use crate::proved::foyer_core::piece::Piece;
use crate::proved::foyer_core::record::Data;
use crate::proved::foyer_core::weighter::Weighter;
use crate::proved::foyer_policy::{Eviction, HashBuilder, Key, Properties, Source, Value};

impl<
    E: Eviction,
    K: Key,
    V: Value,
    P: Properties,
    S: HashBuilder,
    W: Weighter<K, V>,
    A: Filter<K, V>,
    N,
    R,
    I: Finder<K>,
> CacheCore<E, K, V, P, S, W, A, N, R, I>
{
    /// Ends an open fetch of a key with a record of it: inserts that record at `now` and returns an entry for each
    /// waiter, and what left.
    ///
    /// A value is inserted as by `insert_with_properties`, with this source. A piece is inserted as by
    /// `insert_piece`, if its record has this key; otherwise the waiters get F12. If the insert fails, the waiters
    /// get its error, the fetch is closed all the same, and after F7 the evictions made so far stand. A clone of the
    /// key must equal it.
    ///
    /// If the fetch isn't open, nothing changes, and neither the weighter nor the filter is asked.
    #[inline]
    pub fn complete(
        &mut self,
        now: u64,
        key: &K,
        fetch: u64,
        target: FetchTarget<K, V, P>,
        source: Source,
    ) -> Ended<K, V, P, N> {
        if !self.is_open(key, fetch) {
            return Ended::lost(self.alloc);
        }
        match target {
            FetchTarget::Entry { value, properties } => self.complete_value(now, key, fetch, value, properties, source),
            FetchTarget::Piece(piece) => self.complete_piece(now, key, fetch, piece),
        }
    }

    // Ends an open fetch with a value.
    #[inline]
    fn complete_value(
        &mut self,
        now: u64,
        key: &K,
        fetch: u64,
        value: V,
        properties: P,
        source: Source,
    ) -> Ended<K, V, P, N> {
        let hash = self.hash(key);
        let (weight, properties) = self.rules.judge(key, &value, properties);
        let Ok(own) = key.try_clone() else {
            return self.refuse_value(hash, key, fetch, &properties, weight);
        };
        let kept = Data { key: own, value, properties, hash, weight };
        let place = self.shard_index(hash);
        let before = Load::of(&self.shards[place]);
        let ended = self.shards[place].complete(self.alloc, now, fetch, kept, source);
        let after = Load::of(&self.shards[place]);
        self.load.replace(before, after);
        ended
    }

    // Ends an open fetch with a value whose key couldn't be cloned.
    #[inline]
    fn refuse_value(&mut self, hash: u64, key: &K, fetch: u64, properties: &P, weight: usize) -> Ended<K, V, P, N> {
        let place = self.shard_index(hash);
        self.shards[place].refuse_value(self.alloc, hash, key, fetch, properties, weight)
    }

    // Ends an open fetch with a piece.
    #[inline]
    fn complete_piece(&mut self, now: u64, key: &K, fetch: u64, piece: Piece<K, V, P>) -> Ended<K, V, P, N> {
        let hash = self.hash(key);
        let own = self.hash(piece.key());
        let weight = self.weight_under(own, &piece, key);
        let place = self.shard_index(hash);
        let is_home = self.shard_index(own) == place;
        let before = Load::of(&self.shards[place]);
        let ended = self.shards[place].complete_piece(self.alloc, now, hash, key, fetch, piece, own, is_home, weight);
        let after = Load::of(&self.shards[place]);
        self.load.replace(before, after);
        ended
    }
}
