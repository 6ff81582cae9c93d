//! The end of a shard.

// Written by rust/erase/erase.py from crates/foyer_core/src/shard/ending.rt: change that.
#[allow(unused_imports)]
use crate::rattle_std::prelude::*;
use super::Shard;
use crate::proved::foyer_core::finder::Finder;
use crate::proved::foyer_policy::{Eviction, Key, Properties, Value};

impl<E: Eviction, K: Key, V: Value, P: Properties, N, R, I: Finder<K>> Shard<E, K, V, P, N, R, I> {
    /// Ends the shard, and calls `tell` with the key and the value of each resident record: once each, in the
    /// policy's order, or in the order of slots if there is no memory for that order.
    ///
    /// The contract says that each was told. How often, and in which order, no contract can say of a function that
    /// only looks.
    #[inline]
    pub fn finish<F: Fn(&K, &V)>(self, tell: &F) {
        self.store.tell_residents(tell);
    }
}
