//! Look-ups that fetch what is missing.

// Written by rust/erase/erase.py from crates/foyer_raw/src/cache/fetching.rt: change that.
#[allow(unused_imports)]
use crate::rattle_std::prelude::*;
use super::RawCache;
use crate::proved::foyer_raw::counted::{At, Hashed};
use crate::proved::foyer_raw::fetch::{
    Begin, Direct, FetchTypes, Given, NoFetch, Pollable, RawFetch, RawGetOrFetch, RawWait, RequiredFetch, Spawner,
};
use crate::proved::foyer_raw::pipe::Pipe;
use crate::proved::foyer_raw::shares::{Fetch, Shares};
use crate::proved::foyer_raw::ticket::{Answer, Notifier, Waiter};
use crate::proved::foyer_core::{Filter, Finder, Lookup, Weighter};
use crate::proved::foyer_policy::{EventListener, Eviction, HashBuilder, Key, Properties, Result, Value};
use crate::rattle_std::futures::channel::oneshot;
use crate::rattle_std::sync::Wait;

/// What a look-up needs that may have to wait: shares of the cache for an entry or a wait and for a task, a clone of the
/// key, and both ends of a channel.
pub(crate) struct Asking<C, K, V, P> {
    pub(crate) shares: C,
    pub(crate) task: C,
    pub(crate) own: K,
    pub(crate) notifier: Notifier<Answer<K, V, P>>,
    pub(crate) waiter: Waiter<Answer<K, V, P>>,
}

impl<H, E, K, V, S, P, W, A, L, Q, T, I> RawCache<H, E, K, V, S, P, W, A, L, Q, T, I>
where
    H: Wait,
    E: Eviction,
    K: Key,
    V: Value,
    S: HashBuilder,
    P: Properties,
    W: Weighter<K, V>,
    A: Filter<K, V>,
    L: EventListener<Key = K, Value = V>,
    I: Finder<K>,
    Q: Pipe<Key = K, Value = V, Properties = P>,
    T: FetchTypes<K, V, P>,
{
    /// Returns an entry of the key's record, or a wait for a fetch of the key.
    ///
    /// If a `get` at `now` misses the key, the caller waits for the key's open fetch, or for a new one, whose task goes to
    /// the spawner. The task inserts what it fetched at this `now`, whenever it is polled.
    ///
    /// `fr` is called once on a miss, and `fo` once if a new fetch begins, both with no lock held. A required builder that
    /// the caller brings to an open fetch is kept if that has none.
    ///
    /// # Errors
    /// On a hit, F9 if the handle count would pass its limit and F7 if a reference count is full; a hit takes no memory.
    /// On a miss, F10 if no number is left and F7 if memory runs out.
    #[inline]
    pub fn get_or_fetch_inner<O, F, X>(
        &self,
        now: u64,
        key: &K,
        fo: O,
        fr: F,
        context: T::Context,
        spawner: &mut X,
    ) -> Result<RawGetOrFetch<H, E, K, V, S, P, W, A, L, Q, T::Required, I>>
    where
        O: FnOnce() -> Option<T::Optional>,
        F: FnOnce() -> Option<T::Required>,
        X: Spawner<RawFetch<H, E, K, V, S, P, W, A, L, Q, T, I>>,
    {
        let now = At::new(now);
        let key = self.hashed(key);
        if let Some(entry) = self.get_first(now, key.again())? {
            return Ok(RawGetOrFetch::Hit(Some(entry)));
        }
        spawner.reserve()?;
        let asking = self.asking(&key)?;
        self.ask(now, key, asking, fr(), fo, context, spawner)
    }

    // Makes what a look-up of a key needs. Fails with F7 alone.
    #[inline]
    pub(crate) fn asking(
        &self,
        key: &Hashed<'_, K>,
    ) -> Result<Asking<Shares<H, E, K, V, S, P, W, A, L, Q, T::Required, I>, K, V, P>> {
        let (notifier, waiter) = oneshot::channel(self.shares.shared.shards.alloc)?;
        Ok(Asking {
            own: key.key().try_clone()?,
            task: self.shares_of(key.hash())?,
            shares: self.shares_of(key.hash())?,
            notifier,
            waiter,
        })
    }

    // Returns an entry of the key's record, or a wait, by one look-up under one lock. There is room for a task.
    #[inline]
    fn ask<O, X>(
        &self,
        now: At,
        key: Hashed<'_, K>,
        asking: Asking<Shares<H, E, K, V, S, P, W, A, L, Q, T::Required, I>, K, V, P>,
        required: Option<T::Required>,
        fo: O,
        context: T::Context,
        spawner: &mut X,
    ) -> Result<RawGetOrFetch<H, E, K, V, S, P, W, A, L, Q, T::Required, I>>
    where
        O: FnOnce() -> Option<T::Optional>,
        X: Spawner<RawFetch<H, E, K, V, S, P, W, A, L, Q, T, I>>,
    {
        let Asking { shares, task, own, notifier, waiter } = asking;
        let hash = key.hash();
        let asked = self.shares.of(&key).get_or_enqueue(now, key, required, notifier)?;
        match asked {
            Lookup::Hit(core) => Ok(RawGetOrFetch::Hit(Some(shares.entry(core)))),
            Lookup::Lead { fetch, token: _, required } => {
                let begin = Begin {
                    fetch: Fetch { id: fetch, now, hash, time_to_live: self.time_to_live },
                    key: own,
                    context,
                    optional: fo(),
                    required,
                };
                spawner.spawn(RawFetch::new(task, begin));
                Ok(RawGetOrFetch::Miss(RawWait::new(shares, waiter)))
            }
            Lookup::Wait { token: _ } => Ok(RawGetOrFetch::Miss(RawWait::new(shares, waiter))),
        }
    }

    /// Returns a wait for what comes through this channel, for results that no task of this cache sends.
    ///
    /// The wait gives F14 if the sender is gone.
    ///
    /// # Errors
    /// F7 if a reference count is full.
    #[inline]
    pub fn wait_for(
        &self,
        waiter: Waiter<Answer<K, V, P>>,
    ) -> Result<RawWait<H, E, K, V, S, P, W, A, L, Q, T::Required, I>> {
        let shares = self.shares.try_clone()?;
        Ok(RawWait::new(shares, waiter))
    }
}

impl<H, E, K, V, S, P, W, A, L, Q, R, I> RawCache<H, E, K, V, S, P, W, A, L, Q, Direct<R>, I>
where
    H: Wait,
    E: Eviction,
    K: Key,
    V: Value,
    S: HashBuilder,
    P: Properties,
    W: Weighter<K, V>,
    A: Filter<K, V>,
    L: EventListener<Key = K, Value = V>,
    I: Finder<K>,
    Q: Pipe<Key = K, Value = V, Properties = P>,
    R: RequiredFetch<K, V, P>,
{
    /// Returns an entry of the key's record, or a wait for its fetch, which polls the closure's future.
    ///
    /// The closure is called on a hit too. If the key has an open fetch, the caller waits for that one.
    ///
    /// # Errors
    /// Those of `get_or_fetch_inner`.
    #[inline]
    pub fn get_or_fetch<F, X>(
        &self,
        now: u64,
        key: &K,
        fetch: F,
        spawner: &mut X,
    ) -> Result<RawGetOrFetch<H, E, K, V, S, P, W, A, L, Q, Given<R>, I>>
    where
        F: FnOnce() -> R,
        X: Spawner<RawFetch<H, E, K, V, S, P, W, A, L, Q, Direct<R>, I>>,
    {
        let given = Given { fetch: Pollable::new(fetch()) };
        let now = At::new(now);
        let key = self.hashed(key);
        if let Some(entry) = self.get_first(now, key.again())? {
            return Ok(RawGetOrFetch::Hit(Some(entry)));
        }
        spawner.reserve()?;
        let asking = self.asking(&key)?;
        self.ask(now, key, asking, Some(given), || None::<NoFetch>, (), spawner)
    }
}
