//! Inserts of pieces.

// Written by rust/erase/erase.py from crates/foyer_core/src/cache_core/pieces.rt: change that.
#[allow(unused_imports)]
use crate::rattle_std::prelude::*;
use super::CacheCore;
use super::load::Load;
use crate::proved::foyer_core::entry::Leave;
use crate::proved::foyer_core::filter::Filter;
use crate::proved::foyer_core::finder::Finder;
use crate::proved::foyer_core::outcome::{Inserted, InsertedOnto, Refused};
use crate::proved::foyer_core::piece::Piece;
use crate::proved::foyer_core::weighter::Weighter;
use crate::proved::foyer_policy::{Eviction, HashBuilder, Key, Properties, Result, Value};

impl<
    E: Eviction,
    K: Key,
    V: Value,
    P: Properties,
    S: HashBuilder,
    W: Weighter<K, V>,
    A: Filter<K, V>,
    N,
    R,
    I: Finder<K>,
> CacheCore<E, K, V, P, S, W, A, N, R, I>
{
    /// Inserts the record of a piece and returns an entry of it with the source `Memory`, an entry for each caller
    /// that waits for its key, and what left.
    ///
    /// A piece that this core made stands for its record, if the key still has the piece's hash. If that record is
    /// resident it gets the handles, and nothing else happens. Otherwise it is inserted under its id, as by
    /// `insert_with_properties`, with the data that a handle still holds, or else the piece's. A piece of another
    /// core makes a new record that shares the piece's key, value and properties, with a hash and a weight of its
    /// own. The filter isn't asked; a piece whose properties say phantom stays phantom. The key's fetch is closed. A
    /// clone of the key must equal it.
    ///
    /// # Errors
    /// Those of `insert_with_properties`, but F10 only for a new record.
    #[inline]
    pub fn insert_piece(
        &mut self,
        now: u64,
        piece: Piece<K, V, P>,
    ) -> crate::rattle_std::result::Result<Inserted<K, V, P, N>, Refused<K, V, P>> {
        let mut leaves = Vec::new(self.alloc);
        match self.insert_piece_onto(now, piece, &mut leaves) {
            Ok(made) => {
                let InsertedOnto { entry, answers } = made;
                Ok(Inserted { entry, answers, leaves })
            }
            Err(error) => Err(Refused { error, leaves }),
        }
    }

    /// Inserts a piece as `insert_piece` does, and appends what leaves to a list, in order, also before an error.
    #[inline]
    pub fn insert_piece_onto(
        &mut self,
        now: u64,
        piece: Piece<K, V, P>,
        leaves: &mut Vec<Leave<K, V, P>>,
    ) -> Result<InsertedOnto<K, V, P, N>> {
        let hash = self.hash(piece.key());
        let weight = self.weight_under(hash, &piece, piece.key());
        let place = self.shard_index(hash);
        let before = Load::of(&self.shards[place]);
        let made = self.shards[place].emplace_piece(self.alloc, now, piece, hash, weight, leaves);
        let after = Load::of(&self.shards[place]);
        self.load.replace(before, after);
        made
    }

    // The weight that a piece makes a new record with, whose key has this hash. The weighter isn't asked of a piece
    // that its shard knows, nor of one whose key isn't this one.
    #[inline]
    pub(crate) fn weight_under(&self, hash: u64, piece: &Piece<K, V, P>, key: &K) -> usize {
        if !(*key == *piece.key()) || self.shards[self.shard_index(hash)].knows(hash, piece) {
            return 0;
        }
        self.rules.weighter.weigh(piece.key(), piece.value())
    }
}
