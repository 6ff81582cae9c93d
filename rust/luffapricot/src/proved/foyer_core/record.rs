//! The data of records, and limits.

// Written by rust/erase/erase.py from crates/foyer_core/src/record.rt: change that.
#[allow(unused_imports)]
use crate::rattle_std::prelude::*;
use crate::proved::foyer_core::share::Share;
use crate::proved::foyer_policy::{Error, Place, Reason, Result};
use crate::rattle_std::alloc::Global;
use crate::rattle_std::fmt::{self, Debug};

/// What was inserted, with its hash and its weight.
#[derive(Debug)]
pub struct Data<K, V, P> {
    /// The key.
    pub key: K,
    /// The value.
    pub value: V,
    /// The properties.
    pub properties: P,
    /// The key's hash.
    pub hash: u64,
    /// The weight.
    pub weight: usize,
}

/// A set of `IN_INDEXER` and `IN_EVICTION`, upstream's flags of a [`Record`]. No cache uses it.
#[derive(Clone, Copy, Debug, PartialEq, Eq, PartialOrd, Ord, Hash)]
pub struct Flags {
    in_eviction: bool,
    in_indexer: bool,
}

impl Flags {
    /// The record is in the index.
    pub const IN_INDEXER: Flags = Flags { in_eviction: false, in_indexer: true };

    /// The record is in the policy.
    pub const IN_EVICTION: Flags = Flags { in_eviction: true, in_indexer: false };

    /// Returns 1 for `IN_INDEXER`, 2 for `IN_EVICTION`, and the sum for both.
    #[inline]
    pub fn bits(&self) -> u64 {
        let indexer = if self.in_indexer { 1 } else { 0 };
        let eviction = if self.in_eviction { 2 } else { 0 };
        indexer + eviction
    }

    /// Returns the flags that are in either set.
    #[inline]
    pub fn union(self, other: Flags) -> Flags {
        Flags { in_eviction: self.in_eviction || other.in_eviction, in_indexer: self.in_indexer || other.in_indexer }
    }
}

/// A record as upstream has it, for callers that use its name. No cache uses it: a shard keeps its records in slots.
pub struct Record<K, V, P> {
    kept: Share<K, V, P>,
    state: Option<Place>,
    refs: usize,
    flags: Flags,
}

impl<K, V, P> Record<K, V, P> {
    /// Creates a record with no handle and no flag.
    ///
    /// # Errors
    /// F7 if memory runs out.
    #[inline]
    pub fn new(alloc: Global, kept: Data<K, V, P>) -> Result<Self> {
        match Share::new(alloc, kept) {
            Ok(share) => Ok(Record::of_share(share, 0)),
            Err(_) => Err(Error::new(Reason::NoMemory)),
        }
    }

    // A record with this share of its data, so many handles and no flags.
    #[inline(always)]
    pub(crate) fn of_share(kept: Share<K, V, P>, refs: usize) -> Self {
        Record { kept, state: None, refs, flags: Flags { in_eviction: false, in_indexer: false } }
    }

    /// Returns the key.
    #[inline(always)]
    pub fn key(&self) -> &K {
        self.kept.key()
    }

    /// Returns the value.
    #[inline(always)]
    pub fn value(&self) -> &V {
        self.kept.value()
    }

    /// Returns the properties.
    #[inline(always)]
    pub fn properties(&self) -> &P {
        self.kept.properties()
    }

    /// Returns the key's hash.
    #[inline(always)]
    pub fn hash(&self) -> u64 {
        self.kept.hash()
    }

    /// Returns the weight.
    #[inline(always)]
    pub fn weight(&self) -> usize {
        self.kept.weight()
    }

    /// Returns the record's place in a policy, if it has one.
    #[inline(always)]
    pub fn state(&self) -> Option<Place> {
        self.state
    }

    /// Returns the handle count.
    #[inline(always)]
    pub fn refs(&self) -> usize {
        self.refs
    }

    /// Adds handles and returns their count.
    ///
    /// # Errors
    /// F9 if the count would pass `limit`; nothing has changed.
    #[inline(always)]
    pub fn inc_refs(&mut self, n: usize, limit: usize) -> Result<usize> {
        if n > limit || self.refs > limit - n {
            return Err(Error::new(Reason::Handles));
        }
        self.refs += n;
        Ok(self.refs)
    }

    /// Takes away handles, at most as many as there are, and returns how many are left.
    #[inline(always)]
    pub fn dec_refs(&mut self, n: usize) -> usize {
        self.refs -= n;
        self.refs
    }

    /// Returns whether all these flags are set.
    #[inline(always)]
    pub fn get_flags(&self, flags: Flags) -> bool {
        (self.flags.in_indexer || !flags.in_indexer) && (self.flags.in_eviction || !flags.in_eviction)
    }

    /// Sets these flags, or clears them.
    #[inline(always)]
    pub fn set_flags(&mut self, flags: Flags, on: bool) {
        if flags.in_indexer {
            self.flags.in_indexer = on;
        }
        if flags.in_eviction {
            self.flags.in_eviction = on;
        }
    }

    /// Sets or clears `IN_INDEXER`.
    #[inline(always)]
    pub fn set_in_indexer(&mut self, on: bool) {
        self.flags.in_indexer = on;
    }

    /// Returns whether `IN_INDEXER` is set.
    #[inline(always)]
    pub fn is_in_indexer(&self) -> bool {
        self.flags.in_indexer
    }

    /// Sets or clears `IN_EVICTION`.
    #[inline(always)]
    pub fn set_in_eviction(&mut self, on: bool) {
        self.flags.in_eviction = on;
    }

    /// Returns whether `IN_EVICTION` is set.
    #[inline(always)]
    pub fn is_in_eviction(&self) -> bool {
        self.flags.in_eviction
    }

    /// Sets the record's place in a policy.
    #[inline(always)]
    pub fn set_state(&mut self, state: Option<Place>) {
        self.state = state;
    }

    // One more share of the data. F7 if the reference count is full.
    #[inline(always)]
    pub(crate) fn share(&self) -> Result<Share<K, V, P>> {
        self.kept.try_clone()
    }
}

impl<K, V, P> Debug for Record<K, V, P> {
    #[inline]
    fn fmt(&self, f: &mut fmt::Formatter<'_>) -> fmt::Result {
        f.debug_struct("Record").field("hash", &self.kept.hash()).finish()
    }
}

/// The largest numbers that a cache may use.
#[derive(Clone, Copy, Debug, PartialEq, Eq)]
pub struct Limits {
    /// The largest handle count of a record.
    pub handles: usize,
    /// A record id, fetch id or token is given only below this number.
    pub ids: u64,
}

impl Default for Limits {
    /// No limit but those of the types.
    #[inline]
    fn default() -> Limits {
        Limits { handles: usize::MAX, ids: u64::MAX }
    }
}
