//! Inserts and removals that depend on what a key has.

// Written by rust/erase/erase.py from crates/foyer_raw/src/counted/conditional.rt: change that.
#[allow(unused_imports)]
use crate::rattle_std::prelude::*;
use super::{At, CountedShard, FIRST, Hashed, RawInserted, RawPut};
use crate::proved::foyer_raw::leaves::Leaves;
use crate::proved::foyer_raw::replaced::Replaced;
use crate::proved::foyer_core::{CoreEntry, Counted, Data, Finder, Hold, Left, Share};
use crate::proved::foyer_policy::{Error, Event, Eviction, Key, Properties, Reason, Result, Value};
use crate::rattle_std::alloc::Global;

/// What a conditional insert returns that has not failed.
pub type RawReplaced<K, V, P> = Replaced<RawInserted<K, V, P>, CoreEntry<K, V, P>>;

impl<E: Eviction, K: Key, V: Value, P: Properties, R, I: Finder<K>> CountedShard<E, K, V, P, R, I> {
    /// Inserts a record at a time with this share of its data, if its key still has what was seen. If not, looks the key up as
    /// `get` does, and counts neither a hit nor a miss.
    ///
    /// The caller keeps another share of the data, so that no data is dropped under the lock.
    #[inline]
    pub fn replace_if(
        &mut self,
        alloc: Global,
        now: At,
        seen: Option<&CoreEntry<K, V, P>>,
        kept: Share<K, V, P>,
        leaves: &mut Leaves<K, V, P>,
    ) -> Result<RawReplaced<K, V, P>> {
        if !self.still_has(now, seen, &kept) {
            let found = self.shard.get(now.0, kept.hash(), kept.key())?;
            return Ok(Replaced::Changed(found));
        }
        Ok(Replaced::Inserted(self.emplace(alloc, now, kept, leaves)?))
    }

    // Whether the key of these data still has what was seen.
    #[inline]
    fn still_has(&self, now: At, seen: Option<&CoreEntry<K, V, P>>, kept: &Share<K, V, P>) -> bool {
        let (hash, key) = (kept.hash(), kept.key());
        match seen {
            Some(entry) => {
                self.shard.owns(entry)
                    && entry.hash() == hash
                    && self.shard.is_current(now.0, hash, key, Some(entry.id()))
            }
            None => self.shard.is_current(now.0, hash, key, None),
        }
    }

    /// Inserts a record at a time with this share of its data, if it fits beside what is pinned of other keys. If not, nothing
    /// happens.
    ///
    /// The caller keeps another share of the data, so that no data is dropped under the lock.
    #[inline]
    pub fn insert_if_fits(
        &mut self,
        alloc: Global,
        now: At,
        kept: Share<K, V, P>,
        leaves: &mut Leaves<K, V, P>,
    ) -> Result<Option<RawInserted<K, V, P>>> {
        if !self.shard.would_fit(kept.hash(), kept.key(), kept.weight()) {
            return Ok(None);
        }
        Ok(Some(self.emplace(alloc, now, kept, leaves)?))
    }

    /// Removes an entry's record, expired or not, if its key still has it, and returns it as it left (`Remove`).
    ///
    /// Takes no memory.
    #[inline]
    pub fn remove_this(&mut self, entry: &CoreEntry<K, V, P>) -> Option<Left<K, V, P>> {
        if !self.shard.owns(entry) {
            return None;
        }
        let left = self.shard.remove_this(Hold { hash: entry.hash(), id: entry.id(), slot: 0 })?;
        self.stats.count_left(FIRST, Event::Remove, &left);
        Some(left)
    }

    /// Looks the key up at a time as `touch` does, and inserts the record that it hits again as `put_answering` does: copies of its
    /// key, value and properties, with its weight and this expiry. What can't be copied counts as an insert that failed.
    #[inline]
    pub fn set_expires(
        &mut self,
        alloc: Global,
        now: At,
        key: Hashed<'_, K>,
        expires: Option<u64>,
        leaves: &mut Leaves<K, V, P>,
    ) -> Result<Option<RawPut<K, V, P>>>
    where
        V: TryClone,
        P: TryClone,
    {
        let Some(entry) = self.shard.get(now.0, key.hash, key.key)? else {
            self.stats.count(Counted::Miss);
            return Ok(None);
        };
        self.stats.count(Counted::Hit);
        let kept = again(alloc, &entry, expires);
        // The record is resident, so nothing leaves with this handle.
        drop(self.shard.take_back(&entry));
        entry.discard();
        match kept {
            Some(kept) => Ok(Some(self.put_answering(alloc, now, kept, leaves)?)),
            None => {
                self.stats.count(Counted::Refused);
                Err(Error::new(Reason::NoMemory))
            }
        }
    }
}

// The data of an entry's record, copied, with this expiry.
#[inline]
fn again<K: Key, V: Value + TryClone, P: Properties + TryClone>(
    alloc: Global,
    entry: &CoreEntry<K, V, P>,
    expires: Option<u64>,
) -> Option<Share<K, V, P>> {
    let value = entry.value().try_clone().ok()?;
    let key = entry.key().try_clone().ok()?;
    let properties = entry.properties().try_clone().ok()?.with_expiry(expires);
    let (hash, weight) = (entry.hash(), entry.weight());
    Share::new(alloc, Data { key, value, properties, hash, weight }).ok()
}
