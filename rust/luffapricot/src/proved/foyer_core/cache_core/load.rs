//! The sums over the shards of a core.

// Written by rust/erase/erase.py from crates/foyer_core/src/cache_core/load.rt: change that.
#[allow(unused_imports)]
use crate::rattle_std::prelude::*;
use crate::proved::foyer_core::finder::Finder;
use crate::proved::foyer_core::shard::Shard;
use crate::proved::foyer_policy::{Eviction, Key, Properties, Value};

/// The usage and the number of entries of one shard, or of several together.
#[derive(Clone, Copy)]
pub(crate) struct Load {
    // The sum of the weights of the resident records.
    pub(crate) usage: u128,
    // The number of resident records.
    pub(crate) entries: u128,
}

impl Load {
    // The load of a shard.
    #[inline(always)]
    pub(crate) fn of<E: Eviction, K: Key, V: Value, P: Properties, N, R, I: Finder<K>>(
        shard: &Shard<E, K, V, P, N, R, I>,
    ) -> Self {
        Load { usage: shard.usage() as u128, entries: shard.entries() as u128 }
    }

    // The load of these shards together.
    #[inline]
    pub(crate) fn of_all<E: Eviction, K: Key, V: Value, P: Properties, N, R, I: Finder<K>>(
        shards: &[Shard<E, K, V, P, N, R, I>],
    ) -> Self {
        let mut sum = Load { usage: 0, entries: 0 };
        for shard in shards {
            let load = Load::of(shard);
            sum.usage += load.usage;
            sum.entries += load.entries;
        }
        sum
    }

    // Replaces a part of the load by another.
    #[inline(always)]
    pub(crate) fn replace(&mut self, before: Load, after: Load) {
        self.usage = self.usage - before.usage + after.usage;
        self.entries = self.entries - before.entries + after.entries;
    }
}
