//! Inserts.

// Written by rust/erase/erase.py from crates/foyer_raw/src/counted/insertion.rt: change that.
#[allow(unused_imports)]
use crate::rattle_std::prelude::*;
use super::counts::{count_leaves, count_made, count_put, is_phantom};
use super::{At, CountedShard, FIRST};
use crate::proved::foyer_raw::leaves::Leaves;
use crate::proved::foyer_raw::ticket::{Answer, Notifier};
use crate::proved::foyer_core::{CoreEntry, Counted, Finder, InsertedOnto, Leave, Piece, PutOnto, Share};
use crate::proved::foyer_policy::{Error, Eviction, Key, Properties, Reason, Result, Source, Value};
use crate::rattle_std::alloc::Global;

/// What an insert returns that has not failed.
pub type RawInserted<K, V, P> = InsertedOnto<K, V, P, Notifier<Answer<K, V, P>>>;

/// What a put returns that has not failed.
pub type RawPut<K, V, P> = PutOnto<K, V, P, Notifier<Answer<K, V, P>>>;

impl<E: Eviction, K: Key, V: Value, P: Properties, R, I: Finder<K>> CountedShard<E, K, V, P, R, I> {
    /// Inserts a record at a time with this share of its data, and says in an entry that was made of the share where the
    /// record stands. If a fetch is open, nothing happens, and the share comes back in `later`.
    #[inline(always)]
    pub fn place(
        &mut self,
        now: At,
        kept: Share<K, V, P>,
        entry: &mut CoreEntry<K, V, P>,
        leaves: &mut Leaves<K, V, P>,
        later: &mut Option<Share<K, V, P>>,
    ) -> Result<()> {
        if self.shard.has_fetches() {
            *later = Some(kept);
            return Ok(());
        }
        let placed = self.shard.place(now.0, kept, entry, &mut self.left);
        count_put(&mut self.stats, &placed, is_phantom(entry.properties()));
        count_leaves(&mut self.stats, now.0, self.left.as_slice());
        leaves.take(&mut self.left);
        placed
    }

    /// Inserts a record at a time with this share of its data, as one step that makes no entry. Returns what leaves with the
    /// entry that it doesn't make: a phantom record. If a fetch is open, nothing happens, and the share comes back in `later`.
    #[inline(always)]
    pub fn put(
        &mut self,
        now: At,
        kept: Share<K, V, P>,
        leaves: &mut Leaves<K, V, P>,
        later: &mut Option<Share<K, V, P>>,
    ) -> Result<Option<Leave<K, V, P>>> {
        if self.shard.has_fetches() {
            *later = Some(kept);
            return Ok(None);
        }
        let phantom = is_phantom(kept.properties());
        let put = self.shard.put(now.0, kept, &mut self.left);
        count_put(&mut self.stats, &put, phantom);
        count_leaves(&mut self.stats, now.0, self.left.as_slice());
        leaves.take(&mut self.left);
        put
    }

    /// Inserts a record at a time with this share of its data, also while fetches are open.
    #[inline]
    pub fn emplace(
        &mut self,
        alloc: Global,
        now: At,
        kept: Share<K, V, P>,
        leaves: &mut Leaves<K, V, P>,
    ) -> Result<RawInserted<K, V, P>> {
        let made = self.shard.emplace_share(alloc, now.0, kept, Source::Outer, &mut self.left);
        count_made(&mut self.stats, &made);
        count_leaves(&mut self.stats, now.0, self.left.as_slice());
        leaves.take(&mut self.left);
        made
    }

    /// Inserts a record as `put` does, also while fetches are open.
    #[inline]
    pub fn put_answering(
        &mut self,
        alloc: Global,
        now: At,
        kept: Share<K, V, P>,
        leaves: &mut Leaves<K, V, P>,
    ) -> Result<RawPut<K, V, P>> {
        let phantom = is_phantom(kept.properties());
        let put = self.shard.put_share(alloc, now.0, kept, &mut self.left);
        count_put(&mut self.stats, &put, phantom);
        count_leaves(&mut self.stats, now.0, self.left.as_slice());
        leaves.take(&mut self.left);
        put
    }

    /// Inserts a piece's record at a time. The piece's key has this hash, and the record has this weight if the shard doesn't
    /// know the piece.
    #[inline]
    pub fn emplace_piece(
        &mut self,
        alloc: Global,
        now: At,
        piece: Piece<K, V, P>,
        hash: u64,
        weight: usize,
        leaves: &mut Leaves<K, V, P>,
    ) -> Result<RawInserted<K, V, P>> {
        let made = self.shard.emplace_piece(alloc, now.0, piece, hash, weight, &mut self.left);
        count_made(&mut self.stats, &made);
        count_leaves(&mut self.stats, now.0, self.left.as_slice());
        leaves.take(&mut self.left);
        made
    }

    /// Returns whether the shard knows a piece, whose key has this hash.
    #[inline]
    pub fn knows(&self, hash: u64, piece: &Piece<K, V, P>) -> bool {
        self.shard.knows(hash, piece)
    }

    /// Counts an insert that fails because memory ran out, and returns its error: F10, F9 or F8 if it has one of these now, or
    /// else F7.
    #[inline]
    pub fn refuse_insert(&mut self, hash: u64, key: &K, properties: &P, weight: usize) -> Error {
        self.stats.count(Counted::Refused);
        match self.shard.refuses_insert(hash, key, properties, weight) {
            Some(reason) => Error::new(reason),
            None => Error::new(Reason::NoMemory),
        }
    }

    /// Counts a piece whose insert fails because memory ran out, and returns why it would fail now, whatever memory there is,
    /// as `emplace_piece` takes it. Of a piece that the shard knows this asks for a handle alone.
    #[inline]
    pub fn refuse_piece(&mut self, hash: u64, weight: usize, piece: &Piece<K, V, P>) -> Option<Reason> {
        self.stats.count(Counted::Refused);
        if self.shard.knows(hash, piece) {
            return self.shard.refuses_get(FIRST, hash, piece.key());
        }
        self.shard.refuses_insert(hash, piece.key(), piece.properties(), weight)
    }
}
