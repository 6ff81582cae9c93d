//! A hash table with chains: a look-up reads one head and, for most keys, one pair.

// Written by rust/erase/erase.py from crates/foyer_core/src/indexer/hash_table.rt: change that.
#[allow(unused_imports)]
use crate::rattle_std::prelude::*;
use crate::proved::foyer_core::indexer::Indexer;
use crate::proved::foyer_core::indexer::chain::{Pair, find, numbers, push, spread, swap_remove};
use crate::proved::foyer_policy::{Error, Key, Link, Reason, Result};
use crate::rattle_std::alloc::{AllocError, Global};
use crate::rattle_std::mem;

// Twice as many heads come with each step of the shift down from here.
const FIRST_SHIFT: u32 = 62;

/// A hash table with separate chaining, whose pairs lie in one vector (Knuth, The Art of Computer Programming, volume
/// 3, section 6.4).
pub struct HashTableIndexer<K: Key> {
    // the link to the first pair of each chain
    heads: Vec<Link>,
    pairs: Vec<Pair<K>>,
    // by how many bits the product of a hash is shifted to the number of its chain
    shift: u32,
    alloc: Global,
}

impl<K: Key> HashTableIndexer<K> {
    /// Creates an index with no keys.
    #[inline]
    pub fn new(alloc: Global) -> Self {
        HashTableIndexer { heads: Vec::new(alloc), pairs: Vec::new(alloc), shift: FIRST_SHIFT, alloc }
    }

    /// Returns whether there is no key. Takes no memory.
    #[inline(always)]
    pub fn is_empty(&self) -> bool {
        self.pairs.as_slice().is_empty()
    }

    // Makes room for one more pair, and for its chain.
    #[inline]
    fn make_room(&mut self) -> crate::rattle_std::result::Result<(), AllocError> {
        self.pairs.reserve(1)?;
        if self.heads.len() <= self.pairs.len() && self.shift > 1 {
            let shift = self.shift - 1;
            self.heads = spread(self.alloc, shift, &mut self.pairs)?;
            self.shift = shift;
        }
        Ok(())
    }
}

impl<K: Key> Indexer<K> for HashTableIndexer<K> {
    #[inline]
    fn empty(alloc: Global) -> Self {
        HashTableIndexer::new(alloc)
    }

    #[inline]
    fn insert(&mut self, hash: u64, key: K, id: u64) -> Result<Option<u64>> {
        if let Some(place) = find(&self.heads, self.shift, &self.pairs, hash, &key) {
            let pair = &mut self.pairs[place];
            return Ok(Some(mem::replace(&mut pair.number, id)));
        }
        if self.make_room().is_err() {
            return Err(Error::new(Reason::NoMemory));
        }
        let pair = Pair { hash, key, number: id, next: Link::end() };
        push(&mut self.heads, self.shift, &mut self.pairs, pair);
        Ok(None)
    }

    #[inline(always)]
    fn get(&self, hash: u64, key: &K) -> Option<u64> {
        // An index beside another one is mostly empty.
        if self.is_empty() {
            return None;
        }
        let place = find(&self.heads, self.shift, &self.pairs, hash, key)?;
        Some(self.pairs[place].number)
    }

    #[inline]
    fn remove(&mut self, hash: u64, key: &K) -> Option<u64> {
        let place = find(&self.heads, self.shift, &self.pairs, hash, key)?;
        let number = swap_remove(&mut self.heads, self.shift, &mut self.pairs, place);
        Some(number)
    }

    #[inline]
    fn drain(&mut self) -> Result<Vec<u64>> {
        let Ok(ids) = numbers(self.alloc, &self.pairs) else {
            return Err(Error::new(Reason::NoMemory));
        };
        self.pairs.clear();
        self.heads.fill(Link::end());
        Ok(ids)
    }
}
