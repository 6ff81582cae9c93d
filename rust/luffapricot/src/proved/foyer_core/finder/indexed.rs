//! A finder over an index that keeps the keys.

// Written by rust/erase/erase.py from crates/foyer_core/src/finder/indexed.rt: change that.
#[allow(unused_imports)]
use crate::rattle_std::prelude::*;
use crate::proved::foyer_core::finder::Finder;
use crate::proved::foyer_core::indexer::{Indexer, insert_clone};
use crate::proved::foyer_policy::{Key, Result};
use crate::rattle_std::alloc::Global;

/// A finder over any [`Indexer`], whose numbers are slots.
pub struct Indexed<I> {
    index: I,
}

/// Makes a finder of an index, with the keys that it has.
impl<I> From<I> for Indexed<I> {
    #[inline]
    fn from(index: I) -> Self {
        Indexed { index }
    }
}

impl<K: Key, I: Indexer<K>> Finder<K> for Indexed<I> {
    #[inline]
    fn empty(alloc: Global) -> Self {
        Indexed { index: I::empty(alloc) }
    }

    #[inline]
    fn find<F: Fn(usize) -> bool>(&self, hash: u64, key: &K, _is_its: F) -> Option<usize> {
        let slot = self.index.get(hash, key)?;
        Some(slot as usize)
    }

    #[inline]
    fn put(&mut self, hash: u64, key: &K, _was: Option<usize>, slot: usize) -> Result<()> {
        insert_clone(&mut self.index, hash, key, slot as u64)
    }

    #[inline]
    fn take(&mut self, hash: u64, key: &K, _slot: usize) {
        let _ = self.index.remove(hash, key);
    }
}
