//! Pieces of the records in the index, and a record taken out by its piece.

// Written by rust/erase/erase.py from crates/foyer_core/src/shard/resident_pieces.rt: change that.
#[allow(unused_imports)]
use crate::rattle_std::prelude::*;
use super::Shard;
use crate::proved::foyer_core::entry::Left;
use crate::proved::foyer_core::finder::Finder;
use crate::proved::foyer_core::piece::Piece;
use crate::proved::foyer_policy::{Eviction, Key, Properties, Result, Value};
use crate::rattle_std::alloc::Global;

impl<E: Eviction, K: Key, V: Value, P: Properties, N, R, I: Finder<K>> Shard<E, K, V, P, N, R, I> {
    /// Returns a piece of each record in the index, expired or not, in the policy's order.
    ///
    /// # Errors
    /// F7 if memory runs out; nothing has changed.
    #[inline]
    pub fn pieces(&self, alloc: Global) -> Result<Vec<Piece<K, V, P>>> {
        self.store.pieces(alloc)
    }

    /// Returns whether the piece's record is in the index. Takes no memory.
    #[inline]
    pub fn has_piece(&self, piece: &Piece<K, V, P>) -> bool {
        self.store.has_piece(piece)
    }

    /// Takes the piece's record out of the index, if it is still there, and returns it: a `Remove` for the caller to
    /// tell. It takes no memory, and makes no handle.
    ///
    /// The record is found by the piece's number and id alone, so the caller passes a piece to the shard of its hash.
    #[inline]
    pub fn remove_piece(&mut self, piece: &Piece<K, V, P>) -> Option<Left<K, V, P>> {
        self.store.remove_piece(piece)
    }
}
