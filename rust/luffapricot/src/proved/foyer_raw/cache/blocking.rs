//! Look-ups that make or fetch what is missing, and block until it is there.

// Written by rust/erase/erase.py from crates/foyer_raw/src/cache/blocking.rt: change that.
#[allow(unused_imports)]
use crate::rattle_std::prelude::*;
use super::RawCache;
use super::fetching::Asking;
use crate::proved::foyer_raw::counted::At;
use crate::proved::foyer_raw::entry::RawCacheEntry;
use crate::proved::foyer_raw::fetch::{
    AllTasks, Direct, FetchTypes, Given, ListSpawner, RawGetOrFetch, RawWait, RequiredFetch,
};
use crate::proved::foyer_raw::pipe::Pipe;
use crate::proved::foyer_raw::runtime::Runtime;
use crate::proved::foyer_raw::shares::Fetch;
use crate::proved::foyer_core::{Filter, Finder, Lookup, Weighter};
use crate::proved::foyer_policy::{
    Error, EventListener, Eviction, Fault, HashBuilder, Key, Properties, Reason, Result, Source, Value,
};
use crate::rattle_std::futures::executor::block_on;
use crate::rattle_std::io::{self, ErrorKind};

impl<H, E, K, V, S, P, W, A, L, Q, T, I> RawCache<H, E, K, V, S, P, W, A, L, Q, T, I>
where
    H: Runtime,
    E: Eviction,
    K: Key,
    V: Value,
    S: HashBuilder,
    P: Properties,
    W: Weighter<K, V>,
    A: Filter<K, V>,
    L: EventListener<Key = K, Value = V>,
    I: Finder<K>,
    Q: Pipe<Key = K, Value = V, Properties = P>,
    T: FetchTypes<K, V, P>,
{
    /// Returns an entry of the key's record; if a `get` at this time finds none, makes the value and inserts it.
    ///
    /// If several callers miss the same key, the first one calls its closure, with no lock held, and the others block until
    /// it is done. The closure may use the cache under other keys; if it asks for its own key by a call that waits, it never
    /// returns. If a fetch by `get_or_fetch` is open for the key, the call blocks until that fetch's task has ended.
    ///
    /// # Errors
    /// F9 and F7 as `get`; on a miss F10 and F7, what the insert fails with (F7 to F10), F11 with the fault, for all that
    /// wait, if the closure fails, and F14 if the runtime can't block this thread. If another caller's fetch is open, what
    /// that ends with (F12, F13 and F15 too).
    #[inline]
    pub fn get_or_insert_with<F>(
        &self,
        now: u64,
        key: &K,
        make: F,
    ) -> Result<RawCacheEntry<H, E, K, V, S, P, W, A, L, Q, T::Required, I>>
    where
        F: FnOnce() -> crate::rattle_std::result::Result<V, Fault>,
    {
        self.get_or_insert_with_properties(now, key, || match make() {
            Ok(value) => Ok((value, P::default())),
            Err(fault) => Err(fault),
        })
    }

    /// Returns an entry of the key's record as `get_or_insert_with` does. The closure returns the properties too, such as
    /// the value's own expiry.
    ///
    /// # Errors
    /// Those of `get_or_insert_with`.
    #[inline]
    pub fn get_or_insert_with_properties<F>(
        &self,
        now: u64,
        key: &K,
        make: F,
    ) -> Result<RawCacheEntry<H, E, K, V, S, P, W, A, L, Q, T::Required, I>>
    where
        F: FnOnce() -> crate::rattle_std::result::Result<(V, P), Fault>,
    {
        let now = At::new(now);
        let key = self.hashed(key);
        if let Some(entry) = self.get_first(now, key.again())? {
            return Ok(entry);
        }
        let Asking { shares, task, own, notifier, waiter } = self.asking(&key)?;
        let shards = &self.shares.shared.shards;
        let hash = key.hash();
        let asked = self.shares.of(&key).get_or_enqueue(now, key, None, notifier)?;
        match asked {
            Lookup::Hit(core) => return Ok(shares.entry(core)),
            Lookup::Wait { token: _ } => {}
            Lookup::Lead { fetch: id, token: _, required: _ } => {
                let fetch = Fetch { id, now, hash, time_to_live: self.time_to_live };
                match make() {
                    Ok((value, properties)) => task.complete(fetch, own, value, properties, Source::Outer),
                    Err(fault) => task.fail(fetch, &own, fault),
                }
            }
        }
        waited(&shards.rt, RawWait::new(shares, waiter))
    }
}

impl<H, E, K, V, S, P, W, A, L, Q, R, I> RawCache<H, E, K, V, S, P, W, A, L, Q, Direct<R>, I>
where
    H: Runtime,
    E: Eviction,
    K: Key,
    V: Value,
    S: HashBuilder,
    P: Properties,
    W: Weighter<K, V>,
    A: Filter<K, V>,
    L: EventListener<Key = K, Value = V>,
    I: Finder<K>,
    Q: Pipe<Key = K, Value = V, Properties = P>,
    R: RequiredFetch<K, V, P>,
{
    /// Returns an entry of the key's record; if a `get` at this time finds none, fetches it as `get_or_fetch` does, drives the
    /// fetch's task on this thread, and blocks until it is done. If another caller leads the fetch, the call blocks until that
    /// caller's task has ended, and this future is dropped.
    ///
    /// # Errors
    /// F9 and F7 as `get`; on a miss F10 and F7, what the insert fails with (F7 to F10, F12), F11 with the fault if the fetch
    /// fails, and F14 if the runtime can't block this thread. If another caller's fetch is open, what that ends with (F13 and
    /// F15 too).
    #[inline]
    pub fn get_or_fetch_blocking(
        &self,
        now: u64,
        key: &K,
        fetch: R,
    ) -> Result<RawCacheEntry<H, E, K, V, S, P, W, A, L, Q, Given<R>, I>> {
        let shards = &self.shares.shared.shards;
        let mut tasks = ListSpawner::new(shards.alloc);
        let wait = match self.get_or_fetch(now, key, || fetch, &mut tasks)? {
            RawGetOrFetch::Hit(entry) => return entry.ok_or(Error::new(Reason::Spent)),
            RawGetOrFetch::Miss(wait) => wait,
        };
        match block_on(&shards.rt, AllTasks::new(tasks)) {
            Ok(()) => waited(&shards.rt, wait),
            Err(error) => Err(unblocked(&error)),
        }
    }
}

// What a wait ends with. If that hasn't come yet, this thread is parked meanwhile, which takes memory.
#[inline]
fn waited<H, E, K, V, S, P, W, A, L, Q, R, I>(
    rt: &H,
    wait: RawWait<H, E, K, V, S, P, W, A, L, Q, R, I>,
) -> Result<RawCacheEntry<H, E, K, V, S, P, W, A, L, Q, R, I>>
where
    H: Runtime,
    E: Eviction,
    K: Key,
    V: Value,
    P: Properties,
    L: EventListener<Key = K, Value = V>,
    I: Finder<K>,
    Q: Pipe<Key = K, Value = V, Properties = P>,
{
    let ended = match wait.try_now() {
        Ok(ended) => ended,
        Err(wait) => match block_on(rt, wait) {
            Ok(ended) => ended,
            Err(error) => return Err(unblocked(&error)),
        },
    };
    match ended? {
        Some(entry) => Ok(entry),
        None => Err(Error::new(Reason::NoValue)),
    }
}

// Why this thread could not block: memory ran out (F7), or the runtime gave its executor no name, and no answer can come
// (F14).
#[inline]
fn unblocked(error: &io::Error) -> Error {
    if error.kind() == ErrorKind::OutOfMemory {
        return Error::new(Reason::NoMemory);
    }
    Error::new(Reason::ChannelClosed)
}
