//! The index of a shard, from hashed keys to numbers.

// Written by rust/erase/erase.py from crates/foyer_core/src/indexer.rt: change that.
#[allow(unused_imports)]
use crate::rattle_std::prelude::*;
use crate::proved::foyer_policy::{Error, Key, Reason, Result};
use crate::rattle_std::alloc::Global;

mod chain;
mod hash_table;
mod sentry;

pub use hash_table::HashTableIndexer;
pub use sentry::Sentry;

/// A map from keys to numbers. Keys are looked up together with their hash, and compared by `==`.
pub trait Indexer<K: Key>: Sized {
    /// Creates an index with no keys.
    fn empty(alloc: Global) -> Self;

    /// Sets the number of a key, and returns the one it had.
    ///
    /// # Errors
    /// F7 if memory runs out for a new key; nothing has changed.
    fn insert(&mut self, hash: u64, key: K, id: u64) -> Result<Option<u64>>;

    /// Returns the number of a key.
    fn get(&self, hash: u64, key: &K) -> Option<u64>;

    /// Removes a key, and returns its number. Takes no memory.
    fn remove(&mut self, hash: u64, key: &K) -> Option<u64>;

    /// Removes all keys, and returns the number of each, in any order.
    ///
    /// # Errors
    /// F7 if memory runs out; nothing has changed.
    fn drain(&mut self) -> Result<Vec<u64>>;
}

/// Sets the number of a key in an index, which gets a clone of the key.
///
/// # Errors
/// F7 if memory runs out; nothing has changed.
#[inline]
pub(crate) fn insert_clone<K: Key, I: Indexer<K>>(index: &mut I, hash: u64, key: &K, id: u64) -> Result<()> {
    let Ok(own) = key.try_clone() else {
        return Err(Error::new(Reason::NoMemory));
    };
    let _ = index.insert(hash, own, id)?;
    Ok(())
}
