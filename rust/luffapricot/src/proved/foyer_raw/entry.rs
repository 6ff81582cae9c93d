//! Entries of a cache that threads share.

// Written by rust/erase/erase.py from crates/foyer_raw/src/entry.rt: change that.
#[allow(unused_imports)]
use crate::rattle_std::prelude::*;
use crate::proved::foyer_raw::pipe::Pipe;
use crate::proved::foyer_raw::shares::Shares;
use crate::proved::foyer_core::{CoreEntry, Finder, Piece, TagFinder};
use crate::proved::foyer_policy::{EventListener, Eviction, Key, Properties, Result, Source, Value};
use crate::rattle_std::fmt::{self, Debug};

use crate::rattle_std::ops::Deref;
use crate::rattle_std::sync::Wait;

/// A handle of a record of a `RawCache`, which derefs to the record's value.
///
/// The data stay readable while the entry is held, even after eviction. Its drop locks the record's shard to give the
/// handle back, and reports what leaves with it. Contracts see it as the core's entry.
pub struct RawCacheEntry<H, E, K, V, S, P, W, A, L, Q, R, I = TagFinder<K>>
where
    H: Wait,
    E: Eviction,
    K: Key,
    V: Value,
    P: Properties,
    L: EventListener<Key = K, Value = V>,
    I: Finder<K>,
    Q: Pipe<Key = K, Value = V, Properties = P>,
{
    shares: Shares<H, E, K, V, S, P, W, A, L, Q, R, I>,
    core: ::std::mem::ManuallyDrop<CoreEntry<K, V, P>>,
}

impl<H, E, K, V, S, P, W, A, L, Q, R, I> Drop for RawCacheEntry<H, E, K, V, S, P, W, A, L, Q, R, I>
where
    H: Wait,
    E: Eviction,
    K: Key,
    V: Value,
    P: Properties,
    L: EventListener<Key = K, Value = V>,
    I: Finder<K>,
    Q: Pipe<Key = K, Value = V, Properties = P>,
{
    #[inline]
    fn drop(&mut self) {
        let RawCacheEntry { shares, core } = self;
        let core = unsafe { ::std::mem::ManuallyDrop::take(core) };
        shares.give_back(core);
    }
}

impl<H, E, K, V, S, P, W, A, L, Q, R, I> RawCacheEntry<H, E, K, V, S, P, W, A, L, Q, R, I>
where
    H: Wait,
    E: Eviction,
    K: Key,
    V: Value,
    P: Properties,
    L: EventListener<Key = K, Value = V>,
    I: Finder<K>,
    Q: Pipe<Key = K, Value = V, Properties = P>,
{
    // Makes the entry of a handle.
    #[inline]
    pub(crate) fn new(shares: Shares<H, E, K, V, S, P, W, A, L, Q, R, I>, core: CoreEntry<K, V, P>) -> Self {
        RawCacheEntry { shares, core: ::std::mem::ManuallyDrop::new(core) }
    }

    // The handle.
    #[inline(always)]
    pub(crate) fn core(&self) -> &CoreEntry<K, V, P> {
        &self.core
    }

    /// Returns the hash of the key.
    #[inline]
    pub fn hash(&self) -> u64 {
        self.core.hash()
    }

    /// Returns the key.
    #[inline]
    pub fn key(&self) -> &K {
        self.core.key()
    }

    /// Returns the value.
    #[inline]
    pub fn value(&self) -> &V {
        self.core.value()
    }

    /// Returns the properties with which the record was inserted.
    #[inline]
    pub fn properties(&self) -> &P {
        self.core.properties()
    }

    /// Returns the record's weight.
    #[inline]
    pub fn weight(&self) -> usize {
        self.core.weight()
    }

    /// Returns where the entry came from.
    #[inline]
    pub fn source(&self) -> Source {
        self.core.source()
    }

    /// Returns a piece of the record, which keeps its data and is no handle.
    ///
    /// # Errors
    /// F7 if a reference count is full.
    #[inline]
    pub fn piece(&self) -> Result<Piece<K, V, P>> {
        self.core.piece()
    }

    /// Returns the number of the record's handles. Locks its shard.
    #[inline]
    pub fn refs(&self) -> usize {
        self.shares.lock(self.core.hash()).refs(&self.core)
    }

    /// Returns whether the record has left the cache, replaced by another or otherwise. Locks its shard.
    #[inline]
    pub fn is_outdated(&self) -> bool {
        self.shares.lock(self.core.hash()).is_outdated(&self.core)
    }

    /// Returns another entry of the same record. This counts no use. Locks the record's shard.
    ///
    /// # Errors
    /// F9 if the handle count would pass its limit, F7 if a reference count is full.
    #[inline]
    pub fn try_clone(&self) -> Result<Self> {
        let core = self.shares.lock(self.core.hash()).clone_handle(&self.core)?;
        match self.shares.try_clone() {
            Ok(shares) => Ok(shares.entry(core)),
            Err(refused) => {
                self.shares.give_back(core);
                Err(refused)
            }
        }
    }

    /// Gives the handle back, as the entry's drop does.
    #[inline]
    pub fn release(self) {
        drop(self);
    }
}

impl<H, E, K, V, S, P, W, A, L, Q, R, I> Deref for RawCacheEntry<H, E, K, V, S, P, W, A, L, Q, R, I>
where
    H: Wait,
    E: Eviction,
    K: Key,
    V: Value,
    P: Properties,
    L: EventListener<Key = K, Value = V>,
    I: Finder<K>,
    Q: Pipe<Key = K, Value = V, Properties = P>,
{
    type Target = V;

    #[inline]
    fn deref(&self) -> &V {
        self.core.value()
    }
}

impl<H, E, K, V, S, P, W, A, L, Q, R, I> Debug for RawCacheEntry<H, E, K, V, S, P, W, A, L, Q, R, I>
where
    H: Wait,
    E: Eviction,
    K: Key,
    V: Value,
    P: Properties,
    L: EventListener<Key = K, Value = V>,
    I: Finder<K>,
    Q: Pipe<Key = K, Value = V, Properties = P>,
{
    #[inline]
    fn fmt(&self, f: &mut fmt::Formatter<'_>) -> fmt::Result {
        f.debug_struct("RawCacheEntry").field("record", &Named { hash: self.core.hash() }).finish()
    }
}

// A record, by the hash of its key.
#[derive(Clone, Copy)]
struct Named {
    hash: u64,
}

impl Debug for Named {
    #[inline]
    fn fmt(&self, f: &mut fmt::Formatter<'_>) -> fmt::Result {
        f.debug_struct("Record").field("hash", &self.hash).finish()
    }
}
