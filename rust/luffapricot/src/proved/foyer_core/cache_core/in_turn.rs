//! Steps of all shards, in their order.

// Written by rust/erase/erase.py from crates/foyer_core/src/cache_core/in_turn.rt: change that.
#[allow(unused_imports)]
use crate::rattle_std::prelude::*;
use super::shards::shard_capacity;
use crate::proved::foyer_core::entry::Leave;
use crate::proved::foyer_core::finder::Finder;
use crate::proved::foyer_core::shard::Shard;
use crate::proved::foyer_policy::{Error, Eviction, Item, Key, Properties, Reason, Result, Value};
use crate::rattle_std::alloc::Global;

// Evicts all records that aren't pinned. F7 if memory runs out; the first shards are done, and the evictions made so
// far stand.
#[inline]
pub(crate) fn evict_each<E: Eviction, K: Key, V: Value, P: Properties, N, R, I: Finder<K>>(
    shards: &mut Vec<Shard<E, K, V, P, N, R, I>>,
    now: u64,
    leaves: &mut Vec<Leave<K, V, P>>,
) -> Result<()> {
    for place in 0..shards.len() {
        shards[place].evict_unpinned(now, leaves)?;
    }
    Ok(())
}

// Evicts to the capacity of each shard. F7 if memory runs out; the first shards are done, and the evictions made so
// far stand.
#[inline]
pub(crate) fn evict_each_to_capacity<E: Eviction, K: Key, V: Value, P: Properties, N, R, I: Finder<K>>(
    shards: &mut Vec<Shard<E, K, V, P, N, R, I>>,
    now: u64,
    leaves: &mut Vec<Leave<K, V, P>>,
) -> Result<()> {
    for place in 0..shards.len() {
        shards[place].evict_to_capacity(now, leaves)?;
    }
    Ok(())
}

// Gives each shard its part of a capacity, and tells its policy. Nothing leaves. Takes no memory.
#[inline]
pub(crate) fn share_out<E: Eviction, K: Key, V: Value, P: Properties, N, R, I: Finder<K>>(
    shards: &mut Vec<Shard<E, K, V, P, N, R, I>>,
    capacity: usize,
) {
    let count = shards.len();
    for place in 0..count {
        shards[place].set_capacity(shard_capacity(capacity, count, place));
    }
}

// Whether each shard's policy takes a configuration as one of its own.
#[inline]
pub(crate) fn taken_by_each<E: Eviction, K: Key, V: Value, P: Properties, N, R, I: Finder<K>>(
    shards: &Vec<Shard<E, K, V, P, N, R, I>>,
    config: &E::Config,
) -> bool {
    for place in 0..shards.len() {
        if !shards[place].takes(config) {
            return false;
        }
    }
    true
}

// Gives each shard's policy another configuration, one that it accepts. Nothing leaves. Takes no memory.
#[inline]
pub(crate) fn configure_each<E: Eviction, K: Key, V: Value, P: Properties, N, R, I: Finder<K>>(
    shards: &mut Vec<Shard<E, K, V, P, N, R, I>>,
    config: &E::Config,
) {
    for place in 0..shards.len() {
        shards[place].configure(config);
    }
}

// Removes all records as `Clear`, and returns them. Makes room for all shards first; F7 if memory runs out, and
// nothing has changed.
#[inline]
pub(crate) fn clear_each<E: Eviction, K: Key, V: Value, P: Properties, N, R, I: Finder<K>>(
    shards: &mut Vec<Shard<E, K, V, P, N, R, I>>,
    alloc: Global,
) -> Result<Vec<Leave<K, V, P>>> {
    let held = reserve_each(shards, alloc)?;
    let mut leaves = room_for(alloc, &held)?;
    for place in 0..held.len() {
        shards[place].clear(&held[place], &mut leaves);
    }
    Ok(leaves)
}

// Makes room in each policy for a `clear`, and returns the items of each shard. F7 if memory runs out; nothing else
// has changed.
#[inline]
fn reserve_each<E: Eviction, K: Key, V: Value, P: Properties, N, R, I: Finder<K>>(
    shards: &mut Vec<Shard<E, K, V, P, N, R, I>>,
    alloc: Global,
) -> Result<Vec<Vec<Item>>> {
    let mut lists = Vec::with_capacity(alloc, shards.len())?;
    for place in 0..shards.len() {
        lists.push_reserved(shards[place].reserve_clear()?);
    }
    Ok(lists)
}

// Evicts the records for which the predicate returns true, and returns them. Calls it once for each, and makes room
// for all shards first; F7 if memory runs out, and nothing has changed.
#[inline]
pub(crate) fn evict_each_if<E: Eviction, K: Key, V: Value, P: Properties, N, R, I: Finder<K>, F: Fn(&K, &V) -> bool>(
    shards: &mut Vec<Shard<E, K, V, P, N, R, I>>,
    alloc: Global,
    predicate: &F,
) -> Result<Vec<Leave<K, V, P>>> {
    let picked = pick_each(shards, alloc, predicate)?;
    let mut leaves = room_for(alloc, &picked)?;
    for place in 0..picked.len() {
        shards[place].evict_picked(&picked[place], &mut leaves);
    }
    Ok(leaves)
}

// The items of each shard for which the predicate returns true. Calls it once for each. F7 if memory runs out.
#[inline]
fn pick_each<E: Eviction, K: Key, V: Value, P: Properties, N, R, I: Finder<K>, F: Fn(&K, &V) -> bool>(
    shards: &[Shard<E, K, V, P, N, R, I>],
    alloc: Global,
    predicate: &F,
) -> Result<Vec<Vec<Item>>> {
    let mut lists = Vec::with_capacity(alloc, shards.len())?;
    for shard in shards {
        lists.push_reserved(shard.pick(alloc, predicate)?);
    }
    Ok(lists)
}

// An empty list with room for as many as these lists have together. F7 if memory runs out, also for more than a
// `usize` counts.
#[inline]
fn room_for<T>(alloc: Global, lists: &[Vec<Item>]) -> Result<Vec<T>> {
    let mut count = 0usize;
    for list in lists {
        let Some(more) = count.checked_add(list.len()) else {
            return Err(Error::new(Reason::NoMemory));
        };
        count = more;
    }
    Ok(Vec::with_capacity(alloc, count)?)
}
