//! Inserts into a shard.

// Written by rust/erase/erase.py from crates/foyer_core/src/shard/insertion.rt: change that.
#[allow(unused_imports)]
use crate::rattle_std::prelude::*;
use super::Shard;
use crate::proved::foyer_core::entry::{CoreEntry, Leave};
use crate::proved::foyer_core::finder::Finder;
use crate::proved::foyer_core::outcome::{Answers, Further, Handles, InsertedOnto};
use crate::proved::foyer_core::piece::Piece;
use crate::proved::foyer_core::record::Data;
use crate::proved::foyer_core::share::Share;
use crate::proved::foyer_policy::{Error, Eviction, Key, Properties, Result, Source, Value};
use crate::rattle_std::alloc::Global;

impl<E: Eviction, K: Key, V: Value, P: Properties, N, R, I: Finder<K>> Shard<E, K, V, P, N, R, I> {
    /// Inserts a record, and returns an entry of it with this source and one for each caller that waits for its key.
    /// Appends what leaves.
    ///
    /// Records that are expired at `now` are evicted, then the policy's victims, until the record fits or nothing
    /// more leaves; then it replaces the key's record (`Replace`). A record whose properties say that it is phantom
    /// is reported as `Remove`: it replaces the key's record, but nothing is evicted for it, it is never in the
    /// index, and it leaves with its last handle. The key's fetch is closed. A clone of the key must equal it.
    ///
    /// # Errors
    /// F10 if no id is left, F9 if the handle count would pass its limit, F8 if the record's weight and the pinned
    /// weight of other keys don't fit a `usize`; nothing has changed. F7 if memory runs out; the evictions made so
    /// far stand. After any error, callers that wait for the key still wait.
    #[inline(always)]
    pub fn emplace(
        &mut self,
        alloc: Global,
        now: u64,
        kept: Data<K, V, P>,
        source: Source,
        leaves: &mut Vec<Leave<K, V, P>>,
    ) -> Result<InsertedOnto<K, V, P, N>> {
        match Share::new(alloc, kept) {
            Ok(kept) => self.emplace_share(alloc, now, kept, source, leaves),
            Err(kept) => Err(self.out_of_memory(kept.hash, &kept.key, &kept.properties, kept.weight)),
        }
    }

    // The error of an insert of a new record with these parts for which memory runs out: F10, F9 or F8 if it has one of
    // these, with a handle for each waiter, else F7.
    #[cold]
    pub(crate) fn out_of_memory(&self, hash: u64, key: &K, properties: &P, weight: usize) -> Error {
        let further = self.further(hash, key);
        self.store.out_of_memory(hash, key, properties, weight, further.count)
    }

    /// Inserts a record with this share of its data, as `emplace` does.
    ///
    /// # Errors
    /// Those of `emplace`.
    #[inline(always)]
    pub fn emplace_share(
        &mut self,
        alloc: Global,
        now: u64,
        kept: Share<K, V, P>,
        source: Source,
        leaves: &mut Vec<Leave<K, V, P>>,
    ) -> Result<InsertedOnto<K, V, P, N>> {
        if self.has_fetches() {
            return self.emplace_answering(alloc, now, kept, source, leaves);
        }
        let Some(mut entry) = CoreEntry::of_share(&kept, source, true) else {
            let (key, properties) = (kept.key(), kept.properties());
            return Err(self.out_of_memory(kept.hash(), key, properties, kept.weight()));
        };
        match self.place(now, kept, &mut entry, leaves) {
            Ok(()) => Ok(InsertedOnto { entry, answers: Answers::nobody(alloc) }),
            Err(error) => {
                entry.discard();
                Err(error)
            }
        }
    }

    /// Returns whether a fetch is open.
    #[inline(always)]
    pub fn has_fetches(&self) -> bool {
        !self.inflights.is_empty()
    }

    /// Inserts a record with this share of its data as `emplace` does, while no fetch is open, and says in an entry that was made
    /// of the share where the record stands. After an error the entry must be discarded.
    ///
    /// # Errors
    /// Those of `emplace`.
    #[inline(always)]
    pub fn place(
        &mut self,
        now: u64,
        kept: Share<K, V, P>,
        entry: &mut CoreEntry<K, V, P>,
        leaves: &mut Vec<Leave<K, V, P>>,
    ) -> Result<()> {
        self.store.place(now, kept, entry, leaves)
    }

    // Inserts as `emplace` does, if there are open fetches.
    #[cold]
    #[inline(never)]
    pub(crate) fn emplace_answering(
        &mut self,
        alloc: Global,
        now: u64,
        kept: Share<K, V, P>,
        source: Source,
        leaves: &mut Vec<Leave<K, V, P>>,
    ) -> Result<InsertedOnto<K, V, P, N>> {
        let further = self.further(kept.hash(), kept.key());
        match self.store.emplace(alloc, now, kept, source, further, leaves) {
            Ok(made) => {
                let Handles { entry, others } = made;
                let answers = self.inflights.answers(&entry, others);
                Ok(InsertedOnto { entry, answers })
            }
            Err(error) => Err(error),
        }
    }

    /// Returns whether a piece, whose key has this hash, stands for a record of this shard: the piece has the core's
    /// number and this hash, and its id was given. Takes no memory.
    #[inline]
    pub fn knows(&self, hash: u64, piece: &Piece<K, V, P>) -> bool {
        self.store.knows(hash, piece)
    }

    /// Inserts the record of a piece, whose key has this hash, and returns what `emplace` does, with the source
    /// `Memory`. Appends what leaves.
    ///
    /// A piece that the shard knows stands for its record. If that is resident it gets the handles, and nothing else
    /// happens. Otherwise it is inserted under its id, with the data that a handle still holds, or else the piece's.
    /// A piece that the shard doesn't know makes a new record of this hash and this weight, which shares the piece's
    /// data. A clone of the key must equal it.
    ///
    /// # Errors
    /// Those of `emplace`, but F10 only for a new record.
    #[inline]
    pub fn emplace_piece(
        &mut self,
        alloc: Global,
        now: u64,
        piece: Piece<K, V, P>,
        hash: u64,
        weight: usize,
        leaves: &mut Vec<Leave<K, V, P>>,
    ) -> Result<InsertedOnto<K, V, P, N>> {
        let further = self.further_of(hash, &piece);
        match self.store.emplace_piece(alloc, now, piece, hash, weight, further, leaves) {
            Ok(made) => {
                let Handles { entry, others } = made;
                let answers = self.inflights.answers(&entry, others);
                Ok(InsertedOnto { entry, answers })
            }
            Err(error) => Err(error),
        }
    }

    // An entry for each waiter of a key.
    #[inline(always)]
    pub(crate) fn further(&self, hash: u64, key: &K) -> Further {
        let count = if self.inflights.is_empty() { 0 } else { self.inflights.waiters(hash, key) };
        Further { count, room: 0 }
    }

    // An entry for each waiter of the key under which a piece is inserted, whose key has this hash.
    #[inline]
    fn further_of(&self, hash: u64, piece: &Piece<K, V, P>) -> Further {
        let (hash, key) = self.store.key_under(hash, piece);
        self.further(hash, key)
    }
}
