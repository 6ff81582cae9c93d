//! What is under a shard's lock: a shard, the counts of what its calls did, and each call as one step of both.
//!
//! No call of this module takes a lock.

// Written by rust/erase/erase.py from crates/foyer_raw/src/counted.rt: change that.
#[allow(unused_imports)]
use crate::rattle_std::prelude::*;
use crate::proved::foyer_raw::leaves::Leaves;
use crate::proved::foyer_raw::ticket::{Answer, Notifier};
use crate::proved::foyer_core::{Finder, Leave, Shard, Stats};
use crate::proved::foyer_policy::{Eviction, Key, Properties, Value};
use crate::rattle_std::alloc::Global;

mod bulk;
mod conditional;
mod counts;
mod fetches;
mod insertion;
mod keys;
mod passed;

pub use conditional::RawReplaced;
pub use fetches::{Later, RawEnded};
pub use insertion::{RawInserted, RawPut};
pub use passed::{At, Capacity, Hashed};

/// A shard of a cache whose waiters hold senders, and whose later builders are of this type.
pub type RawShard<E, K, V, P, R, I> = Shard<E, K, V, P, Notifier<Answer<K, V, P>>, R, I>;

// The first time. What has not expired from the start is not expired then.
const FIRST: u64 = 0;

/// A shard, and the counts of what its calls did.
///
/// Contracts see its `shard`, by the definitions of foyer_core, and its `stats`.
pub struct CountedShard<E: Eviction, K: Key, V: Value, P: Properties, R, I: Finder<K>> {
    // First, on the cache line of the lock: each look-up writes both.
    stats: Stats,
    shard: RawShard<E, K, V, P, R, I>,
    // Where an insert puts what leaves, so that its room is used again.
    left: Vec<Leave<K, V, P>>,
    // Padding, so that what an insert writes never shares a cache line, or a pair of lines, with the next shard's lock.
    apart: [u64; 16],
}

impl<E: Eviction, K: Key, V: Value, P: Properties, R, I: Finder<K>> CountedShard<E, K, V, P, R, I> {
    /// Creates a shard of which nothing was counted yet.
    #[inline]
    pub fn new(alloc: Global, shard: RawShard<E, K, V, P, R, I>) -> Self {
        CountedShard { stats: Stats::default(), shard, left: Vec::new(alloc), apart: [0; 16] }
    }

    /// Returns the shard.
    #[inline]
    pub fn into_shard(self) -> RawShard<E, K, V, P, R, I> {
        let CountedShard { shard, .. } = self;
        shard
    }

    /// Returns the counts.
    #[inline]
    pub fn stats(&self) -> Stats {
        self.stats
    }

    /// Sets all counts to 0.
    #[inline]
    pub fn reset_stats(&mut self) {
        self.stats = Stats::default();
    }
}
