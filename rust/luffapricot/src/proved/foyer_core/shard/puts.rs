//! Inserts into a shard of which no entry is wanted.

// Written by rust/erase/erase.py from crates/foyer_core/src/shard/puts.rt: change that.
#[allow(unused_imports)]
use crate::rattle_std::prelude::*;
use super::Shard;
use crate::proved::foyer_core::entry::Leave;
use crate::proved::foyer_core::finder::Finder;
use crate::proved::foyer_core::outcome::{Answers, InsertedOnto, PutOnto};
use crate::proved::foyer_core::record::Data;
use crate::proved::foyer_core::share::Share;
use crate::proved::foyer_policy::{Eviction, Key, Properties, Result, Source, Value};
use crate::rattle_std::alloc::Global;

impl<E: Eviction, K: Key, V: Value, P: Properties, N, R, I: Finder<K>> Shard<E, K, V, P, N, R, I> {
    /// Inserts a record with this share of its data as `emplace` does, while no fetch is open, and takes its entry back, as
    /// one step that makes none. Appends what leaves, and returns what left with the entry: a phantom record.
    ///
    /// # Errors
    /// Those of `emplace`.
    #[inline(always)]
    pub fn put(
        &mut self,
        now: u64,
        kept: Share<K, V, P>,
        leaves: &mut Vec<Leave<K, V, P>>,
    ) -> Result<Option<Leave<K, V, P>>> {
        self.store.put(now, kept, leaves)
    }

    /// Inserts a record as `emplace` does, of which no entry is wanted: as one step, that entry is taken back. None is
    /// made if no fetch is open. Appends what leaves.
    ///
    /// # Errors
    /// Those of `emplace`.
    #[inline(always)]
    pub fn put_onto(
        &mut self,
        alloc: Global,
        now: u64,
        kept: Data<K, V, P>,
        leaves: &mut Vec<Leave<K, V, P>>,
    ) -> Result<PutOnto<K, V, P, N>> {
        match Share::new(alloc, kept) {
            Ok(kept) => self.put_share(alloc, now, kept, leaves),
            Err(kept) => Err(self.out_of_memory(kept.hash, &kept.key, &kept.properties, kept.weight)),
        }
    }

    /// Inserts a record with this share of its data as `put_onto` does.
    ///
    /// # Errors
    /// Those of `emplace`.
    #[inline(always)]
    pub fn put_share(
        &mut self,
        alloc: Global,
        now: u64,
        kept: Share<K, V, P>,
        leaves: &mut Vec<Leave<K, V, P>>,
    ) -> Result<PutOnto<K, V, P, N>> {
        if self.has_fetches() {
            return self.put_answering(alloc, now, kept, leaves);
        }
        match self.put(now, kept, leaves) {
            Ok(last) => Ok(PutOnto { last, answers: Answers::nobody(alloc) }),
            Err(error) => Err(error),
        }
    }

    // Inserts as `put_onto` does, if there are open fetches.
    #[cold]
    #[inline(never)]
    fn put_answering(
        &mut self,
        alloc: Global,
        now: u64,
        kept: Share<K, V, P>,
        leaves: &mut Vec<Leave<K, V, P>>,
    ) -> Result<PutOnto<K, V, P, N>> {
        match self.emplace_answering(alloc, now, kept, Source::Outer, leaves) {
            Ok(InsertedOnto { entry, answers }) => {
                let Ok(last) = self.store.take_back_at(entry.id(), entry.slot()) else {
                    crate::rattle_std::macros::unreachable!();
                };
                entry.discard();
                Ok(PutOnto { last, answers })
            }
            Err(error) => Err(error),
        }
    }
}
