//! How a shard finds the slot of a key. The shard says which slot has which key, so a finder needn't keep keys.

// Written by rust/erase/erase.py from crates/foyer_core/src/finder.rt: change that.
#[allow(unused_imports)]
use crate::rattle_std::prelude::*;
use crate::proved::foyer_policy::{Key, Result};
use crate::rattle_std::alloc::Global;

mod indexed;
mod key_tags;
mod tag_finder;
mod trail;

pub use indexed::Indexed;
pub use tag_finder::TagFinder;

/// A map from keys to slots that needn't keep the keys. Keys are looked up together with their hash, and compared by
/// `==`.
pub trait Finder<K: Key>: Sized {
    /// Creates a finder with no keys.
    fn empty(alloc: Global) -> Self;

    /// Returns the slot of a key. `is_its` says of a slot whether this key leads to it, and is asked only of slots in
    /// the finder.
    fn find<F: Fn(usize) -> bool>(&self, hash: u64, key: &K, is_its: F) -> Option<usize>;

    /// Sets the slot of a key, which led to the slot `was`, or to none. No key leads to the new slot. A finder that
    /// keeps keys clones this one.
    ///
    /// # Errors
    /// F7 if memory runs out; nothing has changed.
    fn put(&mut self, hash: u64, key: &K, was: Option<usize>, slot: usize) -> Result<()>;

    /// Removes a key that leads to this slot. Takes no memory.
    fn take(&mut self, hash: u64, key: &K, slot: usize);
}
