//! Tags, and which slot each key leads to.

// Written by rust/erase/erase.py from crates/foyer_core/src/finder/key_tags.rt: change that.
#[allow(unused_imports)]
use crate::rattle_std::prelude::*;
use crate::proved::foyer_core::finder::trail::Trail;
use crate::proved::foyer_core::tags::Tags;
use crate::proved::foyer_policy::{Error, Key, Reason, Result};
use crate::rattle_std::alloc::Global;
use crate::rattle_std::snapshot::Snapshot;

/// Slots below 2^32 - 1 under hashed keys, in tags. No memory is taken for the keys.
pub(crate) struct KeyTags<K: Key> {
    tags: Tags,
    trail: Trail<K>,
}

impl<K: Key> KeyTags<K> {
    /// Creates tags with no keys.
    #[inline]
    pub(crate) fn new(alloc: Global) -> Self {
        KeyTags { tags: Tags::new(alloc), trail: Trail::new() }
    }

    /// Returns the slot of a key. `is_its` says of a slot whether this key leads to it.
    #[inline(always)]
    pub(crate) fn find<F: Fn(usize) -> bool>(&self, hash: u64, _key: &K, is_its: F) -> Option<usize> {
        self.tags.find(hash, is_its)
    }

    /// Sets the slot of a key that has none. No key leads to the slot.
    ///
    /// # Errors
    /// F7 if memory runs out; nothing has changed.
    #[inline(always)]
    pub(crate) fn insert(&mut self, hash: u64, key: Snapshot<K>, slot: usize) -> Result<()> {
        if self.tags.reserve(1).is_err() {
            return Err(Error::new(Reason::NoMemory));
        }
        self.tags.insert(hash, slot);
        self.trail.mark(hash, key, Some(slot));
        Ok(())
    }

    /// Replaces the slot of a key by one to which no key leads. Takes no memory.
    #[inline(always)]
    pub(crate) fn replace(&mut self, hash: u64, key: Snapshot<K>, was: usize, slot: usize) {
        self.tags.replace(hash, was, slot);
        self.trail.mark(hash, key, Some(slot));
    }

    /// Removes a key that leads to this slot. Takes no memory.
    #[inline(always)]
    pub(crate) fn remove(&mut self, hash: u64, key: Snapshot<K>, slot: usize) {
        let _ = self.tags.remove(hash, slot);
        self.trail.mark(hash, key, None);
    }
}
