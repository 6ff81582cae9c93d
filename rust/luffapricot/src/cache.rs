//! The cache.

use crate::builder::CacheBuilder;
use crate::clock::Clock;
use crate::config::EvictionConfig;
use crate::entry::CacheEntry;
use crate::error::{Error, Result};
use crate::fetch::Spawner;
use crate::guard::{Held, Resumed, resumed};
use crate::key::{Equivalent, Hashing, Name, ask};
use crate::pipe::{ArcPipe, Piece, PipeOf};
use crate::properties::{CacheProperties, Properties, Props};
use crate::proved::foyer_core::{Stats, TagFinder};
use crate::proved::foyer_policy::{self, AnyEviction, DefaultHasher};
use crate::proved::foyer_raw::RawCache;
use crate::rattle_std::rt::HostRuntime;
use crate::rattle_std::sync::Arc as Shared;
use crate::rules::{Admit, Key, Tell, Value, Weigh};
use crate::types::Fetches;
use std::fmt;
use std::hash::{BuildHasher, Hash};
use std::sync::Arc;

mod bulk;
mod conditional;
mod entryless;
mod making;

type Inner<K, V, S, P> = RawCache<
    HostRuntime,
    AnyEviction,
    Name<K>,
    Held<V>,
    Hashing<S>,
    Props<P>,
    Weigh<K, V>,
    Admit<K, V>,
    Tell<K, V>,
    PipeOf<K, V, P>,
    Fetches<K, V, P>,
    TagFinder<Name<K>>,
>;

/// An in-memory cache that threads share, with one of five eviction policies.
///
/// A clone is another owner of the same cache.
pub struct Cache<K: Key, V: Value, S: 'static = DefaultHasher, P: Properties = CacheProperties> {
    pub(crate) inner: Resumed<Inner<K, V, S, P>>,
    pub(crate) clock: Shared<Clock>,
    pub(crate) spawner: Option<Arc<dyn Spawner>>,
}

impl<K: Key, V: Value> Cache<K, V> {
    /// Returns a builder of a cache of this capacity.
    pub fn builder(capacity: usize) -> CacheBuilder<K, V> {
        CacheBuilder::new(capacity)
    }
}

// What an infallible call does if memory runs out or a count is full.
#[cold]
#[inline(never)]
pub(crate) fn refused(error: foyer_policy::Error) -> ! {
    panic!("{:?}", Error::from(error))
}

impl<K, V, S, P> Cache<K, V, S, P>
where
    K: Key,
    V: Value,
    S: BuildHasher + Send + Sync + 'static,
    P: Properties,
{
    /// Inserts a record and returns an entry of it.
    ///
    /// Evicts expired records first, then the policy's victims, until the record fits: also if the key has a record, which
    /// is replaced afterwards. A record heavier than the capacity is kept until the next insert into its shard.
    ///
    /// # Panics
    /// If memory runs out, or a count is full. See `try_insert`.
    pub fn insert(&self, key: K, value: V) -> CacheEntry<K, V, S, P> {
        self.insert_with_properties(key, value, P::default())
    }

    /// Inserts a record with properties and returns an entry of it.
    ///
    /// # Panics
    /// If memory runs out, or a count is full. See `try_insert`.
    pub fn insert_with_properties(&self, key: K, value: V, properties: P) -> CacheEntry<K, V, S, P> {
        self.emplace(key, value, properties).unwrap_or_else(|error| refused(error))
    }

    /// Inserts a record with properties and returns an entry of it.
    ///
    /// # Errors
    /// F10 if no id is left, F9 if the handle count would overflow, F8 if the weights would overflow; nothing has changed.
    /// F7 if memory runs out; the evictions made so far stand, and the listener was told of them.
    pub fn try_insert(&self, key: K, value: V, properties: P) -> Result<CacheEntry<K, V, S, P>> {
        Ok(self.emplace(key, value, properties)?)
    }

    #[inline(always)]
    fn emplace(&self, key: K, value: V, properties: P) -> foyer_policy::Result<CacheEntry<K, V, S, P>> {
        let expires = self.clock.expiry(properties.time_to_live());
        let (key, value) = (Name::new(key), Held::new(value));
        let properties = Props::new(properties, expires);
        let entry = resumed(|| self.inner.insert_with_properties(self.clock.now(), key, value, properties));
        entry.map(CacheEntry::new)
    }

    /// Inserts the record of a piece and returns an entry of it.
    ///
    /// A piece of this cache stands for its own record. Any other piece makes a new one.
    pub fn insert_piece(&self, piece: Piece<K, V, P>) -> CacheEntry<K, V, S, P> {
        let entry = resumed(|| self.inner.insert_piece(self.clock.now(), piece.into_inner()));
        CacheEntry::new(entry.unwrap_or_else(|error| refused(error)))
    }

    /// Returns an entry of the key's record, which counts as a use.
    #[inline]
    pub fn get<Q: Hash + Equivalent<K> + ?Sized>(&self, key: &Q) -> Option<CacheEntry<K, V, S, P>> {
        let found = self.ask(key, |name| self.inner.get(self.clock.now(), name));
        found.unwrap_or_else(|error| refused(error)).map(CacheEntry::new)
    }

    /// Removes the key's record, expired or not, and returns an entry of it.
    pub fn remove<Q: Hash + Equivalent<K> + ?Sized>(&self, key: &Q) -> Option<CacheEntry<K, V, S, P>> {
        let found = self.ask(key, |name| self.inner.remove(name));
        found.unwrap_or_else(|error| refused(error)).map(CacheEntry::new)
    }

    /// Returns whether a `get` finds the key. It counts no use.
    pub fn contains<Q: Hash + Equivalent<K> + ?Sized>(&self, key: &Q) -> bool {
        self.ask(key, |name| self.inner.contains(self.clock.now(), name))
    }

    /// Returns whether a `get` finds the key, and counts a use if so.
    pub fn touch<Q: Hash + Equivalent<K> + ?Sized>(&self, key: &Q) -> bool {
        let found = self.ask(key, |name| self.inner.touch(self.clock.now(), name));
        found.unwrap_or_else(|error| refused(error))
    }

    /// Returns the hash of a key.
    pub fn hash<Q: Hash + ?Sized>(&self, key: &Q) -> u64 {
        self.hash_builder().hash_one(key)
    }

    // Looks up what a borrowed key names.
    #[inline(always)]
    fn ask<Q: Hash + Equivalent<K> + ?Sized, T>(&self, key: &Q, look: impl FnOnce(&Name<K>) -> T) -> T {
        resumed(|| ask(self.hash_builder(), key, look))
    }
}

impl<K: Key, V: Value, S, P: Properties> Cache<K, V, S, P> {
    /// Returns the hash builder.
    #[inline]
    pub fn hash_builder(&self) -> &S {
        &self.inner.hash_builder().0
    }

    /// Returns the capacity, a total weight, as the last `resize` or else the builder set it.
    pub fn capacity(&self) -> usize {
        self.inner.capacity()
    }

    /// Returns the number of shards.
    pub fn shards(&self) -> usize {
        self.inner.shards()
    }

    /// Returns the total weight of the records, expired ones included; at most `usize::MAX`.
    ///
    /// Locks one shard after the other, so others may change meanwhile.
    pub fn usage(&self) -> usize {
        usize::try_from(self.inner.usage()).unwrap_or(usize::MAX)
    }

    /// Returns the number of records, expired ones included.
    ///
    /// Locks one shard after the other, so others may change meanwhile.
    pub fn entries(&self) -> usize {
        usize::try_from(self.inner.entries()).unwrap_or(usize::MAX)
    }

    /// Returns the counts since the cache was built or `reset_stats` was called.
    pub fn stats(&self) -> Stats {
        self.inner.stats()
    }

    /// Sets all counts to 0, one shard after the other.
    pub fn reset_stats(&self) {
        self.inner.reset_stats();
    }

    /// Changes the configuration of the policy, which stays the same one.
    ///
    /// # Errors
    /// F17 for another policy, F2 to F6 for the configuration's first fault; nothing has changed.
    pub fn reconfigure(&self, config: impl Into<EvictionConfig>) -> Result<()> {
        Ok(self.inner.reconfigure(&config.into().exact())?)
    }

    /// Returns the cache with this pipe, which its later entries, clones and tasks have too.
    #[must_use]
    pub fn with_pipe(self, pipe: ArcPipe<K, V, P>) -> Self {
        let Ok(pipe) = crate::rattle_std::sync::Arc::new(crate::rattle_std::alloc::Global, PipeOf(pipe)) else {
            panic!("{:?}", Error::no_memory())
        };
        let inner = Resumed::new(self.inner.into_inner().with_pipe(pipe));
        Cache { inner, clock: self.clock, spawner: self.spawner }
    }
}

impl<K: Key, V: Value, S, P: Properties> Clone for Cache<K, V, S, P> {
    /// Returns another owner of the same cache.
    fn clone(&self) -> Self {
        Cache {
            inner: Resumed::new(self.inner.try_clone().unwrap_or_else(|error| refused(error))),
            clock: self.clock.clone(),
            spawner: self.spawner.clone(),
        }
    }
}

impl<K: Key, V: Value, S, P: Properties> fmt::Debug for Cache<K, V, S, P> {
    fn fmt(&self, f: &mut fmt::Formatter<'_>) -> fmt::Result {
        f.debug_struct("Cache")
            .field("capacity", &self.capacity())
            .field("shards", &self.shards())
            .finish_non_exhaustive()
    }
}
