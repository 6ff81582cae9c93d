//! Shares of a cache, with a reference count for each shard.
//!
//! Each call that returns an entry makes a share of the cache, and the entry's drop takes it away. With one count for
//! all, every thread would write to the same cache line, whichever shards they use.

// Written by rust/erase/erase.py from crates/foyer_raw/src/stripes.rt: change that.
#[allow(unused_imports)]
use crate::rattle_std::prelude::*;
use crate::proved::foyer_raw::shared::Shared;
use crate::proved::foyer_core::{Finder, shard_of};
use crate::proved::foyer_policy::{EventListener, Eviction, Key, Properties, Result, Value};
use crate::rattle_std::alloc::Global;
use crate::rattle_std::ops::Deref;
use crate::rattle_std::sync::Arc;

/// One share of what a cache shares. Entries and tasks have shares of this one.
pub(crate) struct Stripe<H, E, K, V, S, P, W, A, L, R, I>
where
    E: Eviction,
    K: Key,
    V: Value,
    P: Properties,
    L: EventListener<Key = K, Value = V>,
    I: Finder<K>,
{
    shared: Arc<Shared<H, E, K, V, S, P, W, A, L, R, I>>,
    // Padding, so that two stripes' counts never share a cache line.
    apart: [u64; 8],
}

impl<H, E, K, V, S, P, W, A, L, R, I> Deref for Stripe<H, E, K, V, S, P, W, A, L, R, I>
where
    E: Eviction,
    K: Key,
    V: Value,
    P: Properties,
    L: EventListener<Key = K, Value = V>,
    I: Finder<K>,
{
    type Target = Shared<H, E, K, V, S, P, W, A, L, R, I>;

    #[inline(always)]
    fn deref(&self) -> &Shared<H, E, K, V, S, P, W, A, L, R, I> {
        &self.shared
    }
}

/// The stripes of a cache, one for each shard.
pub(crate) struct Stripes<H, E, K, V, S, P, W, A, L, R, I>
where
    E: Eviction,
    K: Key,
    V: Value,
    P: Properties,
    L: EventListener<Key = K, Value = V>,
    I: Finder<K>,
{
    all: Vec<Arc<Stripe<H, E, K, V, S, P, W, A, L, R, I>>>,
}

impl<H, E, K, V, S, P, W, A, L, R, I> Stripes<H, E, K, V, S, P, W, A, L, R, I>
where
    E: Eviction,
    K: Key,
    V: Value,
    P: Properties,
    L: EventListener<Key = K, Value = V>,
    I: Finder<K>,
{
    /// Makes a stripe for each shard. Fails with F7 alone.
    #[inline]
    pub(crate) fn new(alloc: Global, shared: Shared<H, E, K, V, S, P, W, A, L, R, I>, count: usize) -> Result<Self> {
        let shared = Arc::new(alloc, shared)?;
        let mut all = Vec::new(alloc);
        for _shard in 0..count {
            let stripe = Stripe { shared: Arc::try_clone(&shared)?, apart: [0; 8] };
            all.push(Arc::new(alloc, stripe)?)?;
        }
        Ok(Stripes { all })
    }

    /// Makes a share that is counted for the shard of a hash. Fails with F7 if its reference count is full.
    #[inline(always)]
    pub(crate) fn share(&self, hash: u64) -> Result<Arc<Stripe<H, E, K, V, S, P, W, A, L, R, I>>> {
        let place = shard_of(hash, self.all.len());
        Ok(Arc::try_clone(&self.all[place])?)
    }
}
