//! The sharded core of a cache.

// Written by rust/erase/erase.py from crates/foyer_core/src/cache_core.rt: change that.
#[allow(unused_imports)]
use crate::rattle_std::prelude::*;
use crate::proved::foyer_core::config::RawCacheConfig;
use crate::proved::foyer_core::entry::{CoreEntry, Leave};
use crate::proved::foyer_core::filter::{AdmitAll, Filter};
use crate::proved::foyer_core::finder::{Finder, TagFinder};
use crate::proved::foyer_core::outcome::{Inserted, InsertedOnto, Refused};
use crate::proved::foyer_core::properties::CacheProperties;
use crate::proved::foyer_core::rules::Rules;
use crate::proved::foyer_core::shard::Shard;
use crate::proved::foyer_core::weighter::{UnitWeighter, Weighter};
use crate::proved::foyer_policy::{DefaultHasher, Error, Eviction, HashBuilder, Key, Properties, Reason, Result, Value};
use load::Load;
use crate::rattle_std::alloc::Global;

mod answers;
mod bulk;
mod completion;
mod conditional;
mod entries;
mod fetches;
mod holds;
mod in_turn;
mod load;
mod onto;
mod pieces;
mod resident_pieces;
mod shards;

pub use shards::{shard_capacity, shard_of};

/// A cache for one thread: records found by their keys, in shards that evict for themselves.
///
/// `N` is the type of waiters, `R` of fetch builders, and `I` of each shard's index. Contracts see a `Core`: the
/// shards, the hash builder, the weighter and the filter.
pub struct CacheCore<
    E: Eviction,
    K: Key,
    V: Value,
    P: Properties = CacheProperties,
    S: HashBuilder = DefaultHasher,
    W: Weighter<K, V> = UnitWeighter,
    A: Filter<K, V> = AdmitAll,
    N = (),
    R = (),
    I: Finder<K> = TagFinder<K>,
> {
    shards: Vec<Shard<E, K, V, P, N, R, I>>,
    // The sums over the shards, kept as these change.
    load: Load,
    capacity: usize,
    hash_builder: S,
    rules: Rules<W, A>,
    alloc: Global,
}

impl<E: Eviction, K: Key, V: Value, P: Properties, S: HashBuilder, W: Weighter<K, V>, A: Filter<K, V>, N, R>
    CacheCore<E, K, V, P, S, W, A, N, R>
{
    /// Creates an empty core, whose shards share the capacity: each of n shards gets one n-th of it, rounded down,
    /// and the first shards get one more until nothing is left over.
    ///
    /// # Errors
    /// F1 if there are no shards, then the first fault of the policy's configuration (F2 to F6), then F7 if memory
    /// runs out.
    #[inline]
    pub fn new(alloc: Global, config: RawCacheConfig<E::Config, S, W, A>) -> Result<Self> {
        Self::with_index(alloc, config)
    }
}

impl<
    E: Eviction,
    K: Key,
    V: Value,
    P: Properties,
    S: HashBuilder,
    W: Weighter<K, V>,
    A: Filter<K, V>,
    N,
    R,
    I: Finder<K>,
> CacheCore<E, K, V, P, S, W, A, N, R, I>
{
    /// Creates an empty core as `new` does, with an index of the caller's choice.
    #[inline]
    pub fn with_index(alloc: Global, config: RawCacheConfig<E::Config, S, W, A>) -> Result<Self> {
        if config.shards == 0 {
            return Err(Error::new(Reason::NoShards));
        }
        let shards = Self::new_shards(alloc, &config)?;
        let load = Load::of_all(&shards);
        Ok(CacheCore {
            shards,
            load,
            capacity: config.capacity,
            hash_builder: config.hash_builder,
            rules: Rules { weighter: config.weighter, filter: config.filter },
            alloc,
        })
    }

    /// Returns the capacity: the weight that the records may have together.
    #[inline]
    pub fn capacity(&self) -> usize {
        self.capacity
    }

    /// Returns the number of shards. A record is in the shard of its hash modulo this number.
    #[inline]
    pub fn shards(&self) -> usize {
        self.shards.len()
    }

    /// Returns the sum of the weights of the resident records, expired ones included.
    #[inline]
    pub fn usage(&self) -> u128 {
        self.load.usage
    }

    /// Returns the number of resident records, expired ones included.
    #[inline]
    pub fn entries(&self) -> u128 {
        self.load.entries
    }

    /// Returns the hash of a key. Equal keys have equal hashes.
    #[inline(always)]
    pub fn hash(&self, key: &K) -> u64 {
        self.hash_builder.hash_one(key)
    }

    /// Returns the hash builder. Each record has the hash of its key.
    #[inline]
    pub fn hash_builder(&self) -> &S {
        &self.hash_builder
    }

    /// Returns whether a `get` at `now` finds the key. It counts no use, and takes no memory.
    #[inline]
    pub fn contains(&self, now: u64, key: &K) -> bool {
        let hash = self.hash(key);
        self.shards[self.shard_index(hash)].contains(now, hash, key)
    }

    /// Returns an entry of the key's record, unless that is expired at `now`. This counts as a use.
    ///
    /// Allocates nothing.
    ///
    /// # Errors
    /// F9 if the handle count would pass its limit, F7 if a reference count is full; nothing has changed.
    #[inline(always)]
    pub fn get(&mut self, now: u64, key: &K) -> Result<Option<CoreEntry<K, V, P>>> {
        let hash = self.hash(key);
        let place = self.shard_index(hash);
        self.shards[place].get(now, hash, key)
    }

    /// Inserts a value with default properties, as `insert_with_properties` does.
    #[inline]
    pub fn insert(
        &mut self,
        now: u64,
        key: K,
        value: V,
    ) -> crate::rattle_std::result::Result<Inserted<K, V, P, N>, Refused<K, V, P>> {
        self.insert_with_properties(now, key, value, P::default())
    }

    /// Inserts a record and returns an entry of it, an entry for each caller that waits for the key, and what left.
    ///
    /// The weighter is asked, and then the filter. Records that are expired at `now` are evicted, then the policy's
    /// victims, until the record fits or nothing more leaves; then it replaces the key's record (`Replace`). A `get`
    /// right after the insert finds it unless it has expired, however heavy it is. The shard's usage is then at most
    /// its capacity, or the record's weight and what was pinned before, whichever is more. The key's fetch is closed.
    /// A clone of the key must equal it.
    ///
    /// A record that the filter doesn't admit, or whose properties say that it is phantom or to be on disk alone, is
    /// reported as `Remove`. It replaces the key's record, but nothing is evicted for it, no `get` finds it, and it
    /// leaves (`Evict`) with its last handle.
    ///
    /// # Errors
    /// F10 if no id is left, F9 if the handle count would pass its limit, F8 if the record's weight and the pinned
    /// weight of other keys don't fit a `usize`; nothing has changed. F7 if memory runs out; the evictions made so
    /// far stand and are returned. After any error, callers that wait for the key still wait.
    #[inline]
    pub fn insert_with_properties(
        &mut self,
        now: u64,
        key: K,
        value: V,
        properties: P,
    ) -> crate::rattle_std::result::Result<Inserted<K, V, P, N>, Refused<K, V, P>> {
        let mut leaves = Vec::new(self.alloc);
        match self.insert_with_properties_onto(now, key, value, properties, &mut leaves) {
            Ok(made) => {
                let InsertedOnto { entry, answers } = made;
                Ok(Inserted { entry, answers, leaves })
            }
            Err(error) => Err(Refused { error, leaves }),
        }
    }

    /// Returns whether the entry has the core's number and a record with a handle, as every unspent entry of this
    /// core has.
    ///
    /// Cores with the same number can't tell their entries apart. Takes no memory.
    #[inline]
    pub fn owns(&self, entry: &CoreEntry<K, V, P>) -> bool {
        self.shards[self.shard_index(entry.hash())].owns(entry)
    }

    /// Gives an entry back and returns what left with it.
    ///
    /// With its last handle a resident record is released, a phantom one leaves, and any other is forgotten. An entry
    /// that the core doesn't own comes back as `Err`, and nothing has changed. Takes no memory.
    #[inline(always)]
    pub fn give_back(
        &mut self,
        entry: CoreEntry<K, V, P>,
    ) -> crate::rattle_std::result::Result<Option<Leave<K, V, P>>, CoreEntry<K, V, P>> {
        let place = self.shard_index(entry.hash());
        self.shards[place].give_back(entry)
    }
}
