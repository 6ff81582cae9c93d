//! The shards of a cache, each under a lock of its own.

// Written by rust/erase/erase.py from crates/foyer_raw/src/shards.rt: change that.
#[allow(unused_imports)]
use crate::rattle_std::prelude::*;
use crate::proved::foyer_raw::counted::{Capacity, CountedShard, RawShard};
use crate::proved::foyer_core::{Finder, shard_of};
use crate::proved::foyer_policy::{Error, Event, EventListener, Eviction, Key, Properties, Result, Value};
use crate::rattle_std::alloc::Global;
use crate::rattle_std::hint::spin_loop;
use crate::rattle_std::sync::{Mutex, MutexGuard, Wait};

mod bulk;

// How often a thread looks whether a lock is free, before it sleeps.
const LOOKS: u32 = 100;

/// The shards of a cache. Each call locks one shard, makes one step, and unlocks, or does so with each in turn.
pub(crate) struct Shards<H, E, K, V, P, R, I>
where
    E: Eviction,
    K: Key,
    V: Value,
    P: Properties,
    I: Finder<K>,
{
    pub(crate) rt: H,
    all: Vec<Mutex<CountedShard<E, K, V, P, R, I>>>,
    // The capacity, under the lock that orders changes of all shards.
    capacity: Mutex<Capacity>,
    pub(crate) alloc: Global,
}

impl<H, E, K, V, P, R, I> Shards<H, E, K, V, P, R, I>
where
    E: Eviction,
    K: Key,
    V: Value,
    P: Properties,
    I: Finder<K>,
{
    // These shards, which share a capacity. Only memory can be missing (F7).
    #[inline]
    pub(crate) fn new(rt: H, alloc: Global, made: Vec<RawShard<E, K, V, P, R, I>>, capacity: Capacity) -> Result<Self> {
        Ok(Shards { rt, all: locked(alloc, made)?, capacity: Mutex::new(capacity), alloc })
    }

    // How many there are.
    #[inline]
    pub(crate) fn len(&self) -> usize {
        self.all.len()
    }

    // Tells a listener all records that are still in, as `Clear`: shard by shard, in each policy's order, or where there is
    // no memory for that order, in the order of slots.
    #[inline]
    pub(crate) fn finish<L: EventListener<Key = K, Value = V>>(self, listener: &L) {
        let Shards { all, .. } = self;
        for shard in all {
            let shard = shard.into_inner().into_shard();
            shard.finish(&|key: &K, value: &V| listener.on_leave(Event::Clear, key, value));
        }
    }
}

impl<H, E, K, V, P, R, I> Shards<H, E, K, V, P, R, I>
where
    H: Wait,
    E: Eviction,
    K: Key,
    V: Value,
    P: Properties,
    I: Finder<K>,
{
    // The place of the shard in which the keys of a hash live.
    #[inline(always)]
    pub(crate) fn index_of(&self, hash: u64) -> usize {
        shard_of(hash, self.all.len())
    }

    // The shard of a hash, locked. A lock that is free is had without waiting.
    #[inline(always)]
    pub(crate) fn lock(&self, hash: u64) -> MutexGuard<'_, CountedShard<E, K, V, P, R, I>> {
        let place = self.index_of(hash);
        match self.all[place].try_lock() {
            Some(shard) => shard,
            None => self.wait_for(place),
        }
    }

    // Refuses an insert for which memory ran out.
    #[cold]
    #[inline(never)]
    pub(crate) fn refuse_insert(&self, hash: u64, key: &K, properties: &P, weight: usize) -> Error {
        self.lock(hash).refuse_insert(hash, key, properties, weight)
    }

    // A shard whose lock was held, locked. A step of a shard is short, and mostly ends before a thread would be asleep: so
    // the thread looks for a while first.
    #[cold]
    #[inline(never)]
    fn wait_for(&self, place: usize) -> MutexGuard<'_, CountedShard<E, K, V, P, R, I>> {
        let shard = &self.all[place];
        for _look in 0..LOOKS {
            spin_loop();
            if let Some(guard) = shard.try_lock() {
                return guard;
            }
        }
        shard.lock(&self.rt)
    }
}

// Each shard under a lock of its own.
#[inline]
fn locked<E: Eviction, K: Key, V: Value, P: Properties, R, I: Finder<K>>(
    alloc: Global,
    made: Vec<RawShard<E, K, V, P, R, I>>,
) -> Result<Vec<Mutex<CountedShard<E, K, V, P, R, I>>>> {
    let mut all = Vec::new(alloc);
    for shard in made {
        all.push(Mutex::new(CountedShard::new(alloc, shard)))?;
    }
    Ok(all)
}
