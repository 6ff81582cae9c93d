//! Pieces of a core's resident records, and a record taken out by its piece.

// Written by rust/erase/erase.py from crates/foyer_core/src/cache_core/resident_pieces.rt: change that.
#[allow(unused_imports)]
use crate::rattle_std::prelude::*;
use super::CacheCore;
use super::load::Load;
use crate::proved::foyer_core::entry::Left;
use crate::proved::foyer_core::filter::Filter;
use crate::proved::foyer_core::finder::Finder;
use crate::proved::foyer_core::piece::Piece;
use crate::proved::foyer_core::weighter::Weighter;
use crate::proved::foyer_policy::{Eviction, HashBuilder, Key, Properties, Result, Value};

impl<
    E: Eviction,
    K: Key,
    V: Value,
    P: Properties,
    S: HashBuilder,
    W: Weighter<K, V>,
    A: Filter<K, V>,
    N,
    R,
    I: Finder<K>,
> CacheCore<E, K, V, P, S, W, A, N, R, I>
{
    /// Returns a piece of each resident record of one shard, expired or not, in the policy's order, or none if there is no
    /// such shard.
    ///
    /// # Errors
    /// F7 if memory runs out.
    #[inline]
    pub fn pieces(&self, shard: usize) -> Result<Vec<Piece<K, V, P>>> {
        match self.shards.get(shard) {
            Some(shard) => shard.pieces(self.alloc),
            None => Ok(Vec::new(self.alloc)),
        }
    }

    /// Returns whether the piece's record is resident in the shard of its hash. Takes no memory.
    #[inline]
    pub fn has_piece(&self, piece: &Piece<K, V, P>) -> bool {
        self.shards[self.shard_index(piece.hash())].has_piece(piece)
    }

    /// Removes the piece's record if it is resident in the shard of its hash, and returns it: a `Remove` for the caller
    /// to tell. Takes no memory, and makes no entry.
    #[inline]
    pub fn remove_piece(&mut self, piece: &Piece<K, V, P>) -> Option<Left<K, V, P>> {
        let place = self.shard_index(piece.hash());
        let before = Load::of(&self.shards[place]);
        let removed = self.shards[place].remove_piece(piece);
        let after = Load::of(&self.shards[place]);
        self.load.replace(before, after);
        removed
    }
}
