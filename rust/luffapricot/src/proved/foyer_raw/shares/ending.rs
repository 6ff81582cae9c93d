//! How an open fetch ends, and those who wait for it are answered.

// Written by rust/erase/erase.py from crates/foyer_raw/src/shares/ending.rt: change that.
#[allow(unused_imports)]
use crate::rattle_std::prelude::*;
use super::Shares;
use crate::proved::foyer_raw::counted::{At, Hashed};
use crate::proved::foyer_raw::expiry::expiring;
use crate::proved::foyer_raw::pipe::Pipe;
use crate::proved::foyer_core::{Filter, Finder, Weighter};
use crate::proved::foyer_policy::{
    Error, EventListener, Eviction, Fault, HashBuilder, Key, Properties, Reason, Source, Value,
};
use crate::rattle_std::sync::{Arc, Wait};

/// An open fetch, as the one who ends it knows it.
#[derive(Clone, Copy)]
pub(crate) struct Fetch {
    /// Its number.
    pub(crate) id: u64,
    /// The time of the call that began it.
    pub(crate) now: At,
    /// The hash of its key.
    pub(crate) hash: u64,
    /// How long what it fetched lives, if that says no expiry of its own.
    pub(crate) time_to_live: Option<u64>,
}

impl Fetch {
    // Its key with the hash.
    #[inline]
    pub(crate) fn hashed<'a, K>(&self, key: &'a K) -> Hashed<'a, K> {
        Hashed::new(self.hash, key)
    }
}

impl<H, E, K, V, S, P, W, A, L, Q, R, I> Shares<H, E, K, V, S, P, W, A, L, Q, R, I>
where
    H: Wait,
    E: Eviction,
    K: Key,
    V: Value,
    S: HashBuilder,
    P: Properties,
    W: Weighter<K, V>,
    A: Filter<K, V>,
    L: EventListener<Key = K, Value = V>,
    I: Finder<K>,
    Q: Pipe<Key = K, Value = V, Properties = P>,
{
    // Ends a fetch with a value.
    #[inline]
    pub(crate) fn complete(&self, fetch: Fetch, key: K, value: V, properties: P, source: Source) {
        let properties = expiring(properties, fetch.now, fetch.time_to_live);
        let kept = self.shared.data(fetch.hash, key, value, properties);
        let alloc = self.shared.shards.alloc;
        let ended = self.lock(kept.hash).complete(alloc, fetch.now, fetch.id, kept, source);
        self.ended(ended);
    }

    // Ends a fetch with a fault.
    #[inline]
    pub(crate) fn fail(&self, fetch: Fetch, key: &K, fault: Fault) {
        let error = self.refusal(fault);
        self.end(&fetch, key, error);
    }

    // The refusal of a fault, which all who wait share.
    #[inline]
    pub(crate) fn refusal(&self, fault: Fault) -> Error {
        match Arc::new(self.shared.shards.alloc, fault) {
            Ok(fault) => Error::new(Reason::Fetch(fault)),
            Err(refused) => Error::from(refused),
        }
    }
}
