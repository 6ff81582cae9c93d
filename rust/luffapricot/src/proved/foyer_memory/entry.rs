//! Entries of a cache of any policy.

// Written by rust/erase/erase.py from crates/foyer_memory/src/entry.rt: change that.
#[allow(unused_imports)]
use crate::rattle_std::prelude::*;
use crate::proved::foyer_memory::kind::Kind;
use crate::proved::foyer_memory::of::Of;
use crate::proved::foyer_memory::policy_config::PolicyConfig;
use crate::proved::foyer_core::{AdmitAll, CacheProperties, Finder, Piece, TagFinder, UnitWeighter};
use crate::proved::foyer_policy::{AnyEviction, DefaultHasher, EventListener, Key, Properties, Result, Source, Value};
use crate::proved::foyer_raw::{FetchTypes, NoFetch, NoListener, NoopPipe, Pipe, RawCacheEntry};
use crate::rattle_std::fmt::{self, Debug};
use crate::rattle_std::ops::Deref;
use crate::rattle_std::sync::Wait;

/// A handle of a record of a `Cache`, which derefs to the record's value.
///
/// The data stay readable while the entry is held, even after eviction. Its drop locks the record's shard to give the
/// handle back. Contracts see the handle as the field `entry`.
pub struct CacheEntry<
    H,
    K,
    V,
    S = DefaultHasher,
    P = CacheProperties,
    W = UnitWeighter,
    A = AdmitAll,
    L = NoListener<K, V>,
    Q = NoopPipe<K, V, P>,
    T = NoFetch,
    I = TagFinder<K>,
> where
    H: Wait,
    K: Key,
    V: Value,
    P: Properties,
    L: EventListener<Key = K, Value = V>,
    I: Finder<K>,
    Q: Pipe<Key = K, Value = V, Properties = P>,
    T: FetchTypes<K, V, P>,
{
    pub(crate) entry: RawCacheEntry<H, AnyEviction, K, V, S, P, W, A, L, Q, T::Required, I>,
    pub(crate) kind: Kind,
}

impl<H, K, V, S, P, W, A, L, Q, T, I> CacheEntry<H, K, V, S, P, W, A, L, Q, T, I>
where
    H: Wait,
    K: Key,
    V: Value,
    P: Properties,
    L: EventListener<Key = K, Value = V>,
    I: Finder<K>,
    Q: Pipe<Key = K, Value = V, Properties = P>,
    T: FetchTypes<K, V, P>,
{
    /// Returns the policy of the entry's cache.
    #[inline]
    pub fn kind(&self) -> Kind {
        self.kind
    }

    /// Returns the entry with its policy in the type, or unchanged if its policy isn't the one that `C` configures.
    #[inline]
    pub fn of_policy<C: PolicyConfig>(self) -> crate::rattle_std::result::Result<Of<C, Self>, Self> {
        if self.kind == C::kind() { Ok(Of::new_of(self)) } else { Err(self) }
    }

    /// Returns the hash of the key.
    #[inline]
    pub fn hash(&self) -> u64 {
        self.entry.hash()
    }

    /// Returns the key.
    #[inline]
    pub fn key(&self) -> &K {
        self.entry.key()
    }

    /// Returns the value.
    #[inline]
    pub fn value(&self) -> &V {
        self.entry.value()
    }

    /// Returns the properties with which the record was inserted.
    #[inline]
    pub fn properties(&self) -> &P {
        self.entry.properties()
    }

    /// Returns the record's weight.
    #[inline]
    pub fn weight(&self) -> usize {
        self.entry.weight()
    }

    /// Returns where the entry came from.
    #[inline]
    pub fn source(&self) -> Source {
        self.entry.source()
    }

    /// Returns a piece of the record, which keeps its data and is no handle.
    ///
    /// # Errors
    /// F7 if a reference count is full.
    #[inline]
    pub fn piece(&self) -> Result<Piece<K, V, P>> {
        self.entry.piece()
    }

    /// Returns the number of the record's handles. Locks its shard.
    #[inline]
    pub fn refs(&self) -> usize {
        self.entry.refs()
    }

    /// Returns whether the record has left the cache, replaced by another or otherwise. Locks its shard.
    #[inline]
    pub fn is_outdated(&self) -> bool {
        self.entry.is_outdated()
    }

    /// Returns another entry of the same record. This counts no use. Locks the record's shard.
    ///
    /// # Errors
    /// F9 if the handle count would pass its limit, F7 if a reference count is full.
    #[inline]
    pub fn try_clone(&self) -> Result<Self> {
        let (entry, kind) = (self.entry.try_clone()?, self.kind);
        Ok(CacheEntry { entry, kind })
    }

    /// Gives the handle back, as the entry's drop does.
    #[inline]
    pub fn release(self) {
        drop(self);
    }
}

impl<H, K, V, S, P, W, A, L, Q, T, I> Deref for CacheEntry<H, K, V, S, P, W, A, L, Q, T, I>
where
    H: Wait,
    K: Key,
    V: Value,
    P: Properties,
    L: EventListener<Key = K, Value = V>,
    I: Finder<K>,
    Q: Pipe<Key = K, Value = V, Properties = P>,
    T: FetchTypes<K, V, P>,
{
    type Target = V;

    #[inline]
    fn deref(&self) -> &V {
        self.entry.value()
    }
}

impl<H, K, V, S, P, W, A, L, Q, T, I> Debug for CacheEntry<H, K, V, S, P, W, A, L, Q, T, I>
where
    H: Wait,
    K: Key,
    V: Value,
    P: Properties,
    L: EventListener<Key = K, Value = V>,
    I: Finder<K>,
    Q: Pipe<Key = K, Value = V, Properties = P>,
    T: FetchTypes<K, V, P>,
{
    #[inline]
    fn fmt(&self, f: &mut fmt::Formatter<'_>) -> fmt::Result {
        f.debug_tuple(self.kind.name()).field(&self.entry).finish()
    }
}
