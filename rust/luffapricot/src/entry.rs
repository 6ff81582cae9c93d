//! Entries: handles of records.

use crate::guard::{Held, dropped};
use crate::key::{Hashing, Name};
use crate::pipe::{Piece, PipeOf};
use crate::properties::{CacheProperties, Properties, Props};
use crate::proved::foyer_core::TagFinder;
use crate::proved::foyer_policy::{AnyEviction, DefaultHasher, Source};
use crate::proved::foyer_raw::RawCacheEntry;
use crate::rattle_std::rt::HostRuntime;
use crate::rules::{Admit, Key, Tell, Value, Weigh};
use crate::types::Required;
use std::fmt;
use std::mem::ManuallyDrop;
use std::ops::Deref;

pub(crate) type InnerEntry<K, V, S, P> = RawCacheEntry<
    HostRuntime,
    AnyEviction,
    Name<K>,
    Held<V>,
    Hashing<S>,
    Props<P>,
    Weigh<K, V>,
    Admit<K, V>,
    Tell<K, V>,
    PipeOf<K, V, P>,
    Required<K, V, P>,
    TagFinder<Name<K>>,
>;

/// A handle of a record, which derefs to its value.
///
/// While you hold it the record's data stays readable, even after its eviction. Under LRU, an entry of a `get` also pins
/// its record. A drop gives the handle back, and locks the record's shard for that.
pub struct CacheEntry<K: Key, V: Value, S: 'static = DefaultHasher, P: Properties = CacheProperties>(
    ManuallyDrop<InnerEntry<K, V, S, P>>,
);

impl<K: Key, V: Value, S, P: Properties> CacheEntry<K, V, S, P> {
    pub(crate) fn new(inner: InnerEntry<K, V, S, P>) -> Self {
        CacheEntry(ManuallyDrop::new(inner))
    }

    pub(crate) fn inner(&self) -> &InnerEntry<K, V, S, P> {
        &self.0
    }

    /// Returns the hash of the key.
    pub fn hash(&self) -> u64 {
        self.0.hash()
    }

    /// Returns the key.
    pub fn key(&self) -> &K {
        self.0.key().get()
    }

    /// Returns the value.
    #[inline]
    pub fn value(&self) -> &V {
        self.0.value().get()
    }

    /// Returns the properties.
    pub fn properties(&self) -> &P {
        self.0.properties().user()
    }

    /// Returns the weight.
    pub fn weight(&self) -> usize {
        self.0.weight()
    }

    /// Returns the number of the record's handles. Locks its shard.
    pub fn refs(&self) -> usize {
        self.0.refs()
    }

    /// Returns whether the record has left the cache: it was evicted, replaced, removed or cleared. Locks its shard.
    pub fn is_outdated(&self) -> bool {
        self.0.is_outdated()
    }

    /// Returns the record's data without a handle. Panics if 2^63 clones of it are kept.
    pub fn piece(&self) -> Piece<K, V, P> {
        Piece::new(self.0.piece().expect("a reference count is full"))
    }

    /// Returns where the entry came from.
    pub fn source(&self) -> Source {
        self.0.source()
    }
}

impl<K: Key, V: Value, S, P: Properties> Drop for CacheEntry<K, V, S, P> {
    #[inline]
    fn drop(&mut self) {
        // SAFETY: nothing uses it after its drop.
        dropped(|| unsafe { ManuallyDrop::drop(&mut self.0) });
    }
}

impl<K: Key, V: Value, S, P: Properties> Clone for CacheEntry<K, V, S, P> {
    /// Returns another handle of the same record. Locks its shard. Panics if 2^63 handles are kept.
    fn clone(&self) -> Self {
        CacheEntry::new(self.0.try_clone().expect("a handle count is full"))
    }
}

impl<K: Key, V: Value, S, P: Properties> Deref for CacheEntry<K, V, S, P> {
    type Target = V;

    #[inline]
    fn deref(&self) -> &V {
        self.value()
    }
}

impl<K: Key, V: Value, S, P: Properties> fmt::Debug for CacheEntry<K, V, S, P> {
    fn fmt(&self, f: &mut fmt::Formatter<'_>) -> fmt::Result {
        f.debug_struct("CacheEntry").field("hash", &self.hash()).finish_non_exhaustive()
    }
}
