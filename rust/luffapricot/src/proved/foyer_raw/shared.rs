//! What the clones, the entries and the tasks of a cache share.

// Written by rust/erase/erase.py from crates/foyer_raw/src/shared.rt: change that.
#[allow(unused_imports)]
use crate::rattle_std::prelude::*;
use crate::proved::foyer_raw::counted::{At, Hashed, RawEnded};
use crate::proved::foyer_raw::shards::Shards;
use crate::proved::foyer_core::{Data, Filter, Finder, Piece, Rules, Weighter};
use crate::proved::foyer_policy::{EventListener, Eviction, HashBuilder, Key, Properties, Value};
use crate::rattle_std::sync::{Arc, Wait};

/// What the clones, the entries and the tasks of a cache share.
///
/// The last owner's drop tells the listener of all records that are still in, as `Clear`.
pub(crate) struct Shared<H, E, K, V, S, P, W, A, L, R, I>
where
    E: Eviction,
    K: Key,
    V: Value,
    P: Properties,
    L: EventListener<Key = K, Value = V>,
    I: Finder<K>,
{
    pub(crate) shards: ::std::mem::ManuallyDrop<Shards<H, E, K, V, P, R, I>>,
    pub(crate) hash_builder: Arc<S>,
    pub(crate) rules: Rules<W, A>,
    pub(crate) listener: L,
}

impl<H, E, K, V, S, P, W, A, L, R, I> Drop for Shared<H, E, K, V, S, P, W, A, L, R, I>
where
    E: Eviction,
    K: Key,
    V: Value,
    P: Properties,
    L: EventListener<Key = K, Value = V>,
    I: Finder<K>,
{
    #[inline]
    fn drop(&mut self) {
        let Shared { shards, hash_builder: _, rules: _, listener } = self;
        let shards = unsafe { ::std::mem::ManuallyDrop::take(shards) };
        shards.finish(listener);
    }
}

impl<H, E, K, V, S, P, W, A, L, R, I> Shared<H, E, K, V, S, P, W, A, L, R, I>
where
    H: Wait,
    E: Eviction,
    K: Key,
    V: Value,
    S: HashBuilder,
    P: Properties,
    W: Weighter<K, V>,
    A: Filter<K, V>,
    L: EventListener<Key = K, Value = V>,
    I: Finder<K>,
{
    // Makes a record to insert, of a key with this hash. Asks the weighter, then the filter, with no lock held.
    #[inline]
    pub(crate) fn data(&self, hash: u64, key: K, value: V, properties: P) -> Data<K, V, P> {
        self.rules.data(hash, key, value, properties)
    }

    // Returns the weight of a piece whose key has this hash, by the weighter. If its shard knows the piece, which then
    // holds for ever, the weighter isn't asked, and this is 0.
    #[inline]
    pub(crate) fn weight_of(&self, hash: u64, piece: &Piece<K, V, P>) -> usize {
        let is_known = self.shards.lock(hash).knows(hash, piece);
        if is_known {
            return 0;
        }
        self.rules.weighter.weigh(piece.key(), piece.value())
    }

    // Ends an open fetch of a key with this hash by a piece, inserted at `now`. All that wait get F12 if the piece's record
    // has another key or lives in another shard. Asks the weighter of a piece that this cache doesn't know.
    #[inline]
    pub(crate) fn complete_piece(
        &self,
        now: At,
        key: Hashed<'_, K>,
        fetch: u64,
        piece: Piece<K, V, P>,
    ) -> RawEnded<K, V, P> {
        let own = self.hash_builder.hash_one(piece.key());
        let weight = if own == key.hash() && *key.key() == *piece.key() { self.weight_of(own, &piece) } else { 0 };
        let shards = &self.shards;
        let is_home = shards.index_of(own) == shards.index_of(key.hash());
        shards.lock(key.hash()).complete_piece(shards.alloc, now, key, fetch, piece, own, is_home, weight)
    }
}
