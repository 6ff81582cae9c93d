//! A finder over tags.

// Written by rust/erase/erase.py from crates/foyer_core/src/finder/tag_finder.rt: change that.
#[allow(unused_imports)]
use crate::rattle_std::prelude::*;
use crate::proved::foyer_core::finder::Finder;
use crate::proved::foyer_core::finder::key_tags::KeyTags;
use crate::proved::foyer_core::indexer::{HashTableIndexer, Indexer, insert_clone};
use crate::proved::foyer_policy::{Key, Result};
use crate::rattle_std::alloc::Global;
use crate::rattle_std::snapshot::Snapshot;

// Slots from here on don't fit a tag.
const FAR: usize = u32::MAX as usize;

/// A finder that takes eight bytes for each bucket and compares keys in the records. Slots from 2^32 - 1 on are in an
/// index beside the tags, which keeps clones of their keys.
pub struct TagFinder<K: Key, I: Indexer<K> = HashTableIndexer<K>> {
    near: KeyTags<K>,
    far: I,
}

impl<K: Key, I: Indexer<K>> TagFinder<K, I> {
    // Puts a slot under a key whose number fits a tag.
    #[inline(always)]
    fn put_near(&mut self, hash: u64, key: &K, was: Option<usize>, slot: usize) -> Result<()> {
        let Some(was) = was else {
            return self.near.insert(hash, Snapshot::of(key), slot);
        };
        if was < FAR {
            self.near.replace(hash, Snapshot::of(key), was, slot);
            return Ok(());
        }
        self.near.insert(hash, Snapshot::of(key), slot)?;
        let _ = self.far.remove(hash, key);
        Ok(())
    }

    // Puts a slot whose number fits no tag under a clone of the key.
    #[cold]
    #[inline(never)]
    fn put_far(&mut self, hash: u64, key: &K, was: Option<usize>, slot: usize) -> Result<()> {
        insert_clone(&mut self.far, hash, key, slot as u64)?;
        if let Some(was) = was {
            if was < FAR {
                self.near.remove(hash, Snapshot::of(key), was);
            }
        }
        Ok(())
    }
}

impl<K: Key, I: Indexer<K>> Finder<K> for TagFinder<K, I> {
    #[inline]
    fn empty(alloc: Global) -> Self {
        TagFinder { near: KeyTags::new(alloc), far: I::empty(alloc) }
    }

    #[inline(always)]
    fn find<F: Fn(usize) -> bool>(&self, hash: u64, key: &K, is_its: F) -> Option<usize> {
        if let Some(slot) = self.near.find(hash, key, is_its) {
            return Some(slot);
        }
        let slot = self.far.get(hash, key)?;
        Some(slot as usize)
    }

    #[inline(always)]
    fn put(&mut self, hash: u64, key: &K, was: Option<usize>, slot: usize) -> Result<()> {
        if slot < FAR { self.put_near(hash, key, was, slot) } else { self.put_far(hash, key, was, slot) }
    }

    #[inline(always)]
    fn take(&mut self, hash: u64, key: &K, slot: usize) {
        if slot < FAR {
            self.near.remove(hash, Snapshot::of(key), slot);
        } else {
            let _ = self.far.remove(hash, key);
        }
    }
}
