//! The open fetches of a shard: who leads the fetch of a key, and who waits for it.

// Written by rust/erase/erase.py from crates/foyer_core/src/inflight.rt: change that.
#[allow(unused_imports)]
use crate::rattle_std::prelude::*;
use crate::proved::foyer_core::indexer::{HashTableIndexer, Indexer};
use crate::proved::foyer_core::outcome::Waiting;
use crate::proved::foyer_core::slots::Slots;
use crate::proved::foyer_policy::{Error, Key, Reason, Result};
use crate::rattle_std::alloc::Global;

mod answering;

/// A fetch that is open.
struct Inflight<N, R> {
    id: u64,
    // the time at which it was opened
    opened: u64,
    waiters: Vec<Waiting<N>>,
    // the first builder that a waiter brought
    later: Option<R>,
}

impl<N, R> Inflight<N, R> {
    // A new fetch, opened at `now`, with this waiter. F7 if memory runs out.
    #[inline]
    fn new(alloc: Global, now: u64, id: u64, waiting: Waiting<N>) -> Result<Self> {
        let Ok(mut waiters) = Vec::with_capacity(alloc, 1) else {
            return Err(Error::new(Reason::NoMemory));
        };
        waiters.push_reserved(waiting);
        Ok(Inflight { id, opened: now, waiters, later: None })
    }

    // Adds a waiter. Its builder is kept if the fetch has none. F7 if memory runs out; nothing has changed.
    #[inline]
    fn join(&mut self, waiting: Waiting<N>, later: Option<R>) -> Result<()> {
        let Ok(()) = self.waiters.reserve(1) else {
            return Err(Error::new(Reason::NoMemory));
        };
        self.waiters.push_reserved(waiting);
        if self.later.is_none() {
            self.later = later;
        }
        Ok(())
    }

    // Takes the builder that is kept.
    #[inline]
    fn take_later(&mut self) -> Option<R> {
        self.later.take()
    }

    // Whether this is the fetch that was asked for, if one was.
    #[inline]
    fn is_asked(&self, id: Option<u64>) -> bool {
        match id {
            Some(id) => self.id == id,
            None => true,
        }
    }
}

/// What a caller gets that asks for a missing key.
pub enum Enqueue<R> {
    /// Nobody fetches the key: the caller leads a new fetch.
    Lead {
        /// The fetch's id.
        id: u64,
        /// The token that the leader waits with.
        token: u64,
        /// The leader's own builder.
        required_fetch_builder: Option<R>,
    },
    /// The key has an open fetch.
    Wait {
        /// The token to wait with.
        token: u64,
    },
}

/// What a fetch that found nothing goes on with.
pub enum FetchOrTake<R, N> {
    /// A waiter's builder, to fetch with.
    Fetch(R),
    /// The waiters. The fetch is closed.
    Notifiers(Vec<Waiting<N>>),
}

/// The open fetches of a shard, at most one for each key.
///
/// Keys are looked up together with their hash, and compared by `==`. `N` is the type of waiters, `R` of builders.
pub struct InflightManager<K: Key, N, R> {
    index: HashTableIndexer<K>,
    inflights: Slots<Inflight<N, R>>,
    next_fetch: u64,
    next_token: u64,
    alloc: Global,
}

impl<K: Key, N, R> InflightManager<K, N, R> {
    /// Creates a manager with no open fetch. The first fetch and the first token have the number 0.
    #[inline]
    pub fn new(alloc: Global) -> Self {
        InflightManager {
            index: HashTableIndexer::new(alloc),
            inflights: Slots::new(alloc),
            next_fetch: 0,
            next_token: 0,
            alloc,
        }
    }

    /// Enters a caller that asks at `now` for a missing key.
    ///
    /// If the key has no open fetch, one is opened and the caller leads it. Otherwise the caller waits, and its
    /// builder is kept if the fetch has none.
    ///
    /// # Errors
    /// F10 if a number isn't below `ids`, then F7 if memory runs out; nothing has changed.
    #[inline]
    pub fn enqueue(
        &mut self,
        now: u64,
        hash: u64,
        key: K,
        required_fetch_builder: Option<R>,
        waiter: N,
        ids: u64,
    ) -> Result<Enqueue<R>> {
        let Some(number) = self.index.get(hash, &key) else {
            return self.lead(now, hash, key, required_fetch_builder, waiter, ids);
        };
        let token = self.next_token;
        if token >= ids {
            return Err(Error::new(Reason::Ids));
        }
        let Some(inflight) = self.inflights.get_mut(number as usize) else {
            crate::rattle_std::macros::unreachable!();
        };
        inflight.join(Waiting { token, waiter }, required_fetch_builder)?;
        self.next_token += 1;
        Ok(Enqueue::Wait { token })
    }

    // Opens a fetch for the first caller that asks for a key.
    #[inline]
    fn lead(
        &mut self,
        now: u64,
        hash: u64,
        key: K,
        required_fetch_builder: Option<R>,
        waiter: N,
        ids: u64,
    ) -> Result<Enqueue<R>> {
        let id = self.next_fetch;
        let token = self.next_token;
        if id >= ids || token >= ids {
            return Err(Error::new(Reason::Ids));
        }
        let inflight = Inflight::new(self.alloc, now, id, Waiting { token, waiter })?;
        let Ok(()) = self.inflights.reserve() else {
            return Err(Error::new(Reason::NoMemory));
        };
        let number = self.inflights.next_slot();
        if let Err(error) = self.index.insert(hash, key, number as u64) {
            return Err(error);
        }
        let _ = self.inflights.insert(inflight);
        self.next_fetch += 1;
        self.next_token += 1;
        Ok(Enqueue::Lead { id, token, required_fetch_builder })
    }

    /// Closes a key's open fetch and returns its waiters, one or more. With an id, only that fetch.
    ///
    /// Returns `None` if no such fetch is open. Takes no memory.
    #[inline]
    pub fn take(&mut self, hash: u64, key: &K, id: Option<u64>) -> Option<Vec<Waiting<N>>> {
        let number = self.index.get(hash, key)? as usize;
        let Some(inflight) = self.inflights.get(number) else {
            crate::rattle_std::macros::unreachable!();
        };
        if !inflight.is_asked(id) {
            return None;
        }
        let _ = self.index.remove(hash, key);
        let Inflight { waiters, .. } = self.inflights.remove(number);
        Some(waiters)
    }

    // Closes a key's fetch, if one is open, and returns its waiters. Takes no memory.
    #[inline(always)]
    fn close(&mut self, hash: u64, key: &K) -> Vec<Waiting<N>> {
        if self.is_empty() {
            return Vec::new(self.alloc);
        }
        match self.take(hash, key, None) {
            Some(waiters) => waiters,
            None => Vec::new(self.alloc),
        }
    }

    /// Takes the builder that an open fetch keeps, to go on with after the fetch found nothing. If it keeps none,
    /// closes the fetch and returns its waiters.
    ///
    /// Returns `None` if the fetch isn't open. Takes no memory.
    #[inline]
    pub fn fetch_or_take(&mut self, hash: u64, key: &K, id: u64) -> Option<FetchOrTake<R, N>> {
        if !self.is_open(hash, key, id) {
            return None;
        }
        if let Some(builder) = self.take_later(hash, key) {
            return Some(FetchOrTake::Fetch(builder));
        }
        let Some(waiters) = self.take(hash, key, None) else {
            crate::rattle_std::macros::unreachable!();
        };
        Some(FetchOrTake::Notifiers(waiters))
    }

    // Takes the builder that a key's open fetch keeps.
    #[inline]
    fn take_later(&mut self, hash: u64, key: &K) -> Option<R> {
        let number = self.index.get(hash, key)?;
        let Some(inflight) = self.inflights.get_mut(number as usize) else {
            crate::rattle_std::macros::unreachable!();
        };
        inflight.take_later()
    }

    /// Returns whether this fetch of a key is open. Takes no memory.
    #[inline]
    pub fn is_open(&self, hash: u64, key: &K, id: u64) -> bool {
        match self.find(hash, key) {
            Some(inflight) => inflight.id == id,
            None => false,
        }
    }

    /// Returns whether `enqueue` would fail with F10 for this key. Takes no memory.
    #[inline]
    pub fn lacks(&self, hash: u64, key: &K, ids: u64) -> bool {
        self.next_token >= ids || (self.next_fetch >= ids && self.find(hash, key).is_none())
    }

    /// Returns how many callers wait for a key's fetch: 0 if none is open. Takes no memory.
    #[inline(always)]
    pub fn waiters(&self, hash: u64, key: &K) -> usize {
        match self.find(hash, key) {
            Some(inflight) => inflight.waiters.len(),
            None => 0,
        }
    }

    /// Returns whether no fetch is open. Takes no memory.
    #[inline(always)]
    pub fn is_empty(&self) -> bool {
        self.index.is_empty()
    }

    // The open fetch of a key.
    #[inline]
    fn find(&self, hash: u64, key: &K) -> Option<&Inflight<N, R>> {
        let number = self.index.get(hash, key)? as usize;
        self.inflights.get(number)
    }
}
