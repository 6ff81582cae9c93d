//! The task that fetches a missing key for all that wait for it.

// Written by rust/erase/erase.py from crates/foyer_raw/src/fetch/task.rt: change that.
#[allow(unused_imports)]
use crate::rattle_std::prelude::*;
use super::state::{RawFetchState, TaskEvent};
use super::types::{FetchTypes, OptionalFuture, RequiredFuture};
use crate::proved::foyer_raw::pipe::Pipe;
use crate::proved::foyer_raw::shares::{Fetch, Shares};
use crate::proved::foyer_core::{Finder, TagFinder};
use crate::proved::foyer_policy::{Error, EventListener, Eviction, Fault, Key, Properties, Reason, Value};
use crate::rattle_std::futures::Future;
use crate::rattle_std::futures::task::{Context, Poll};
use crate::rattle_std::fmt::{self, Debug};
use crate::rattle_std::sync::Wait;

mod ends;
mod polls;

/// The task that fetches a missing key for all that wait for it.
///
/// The spawner of the first caller gets it. If it is dropped before it has ended, all that wait get F15.
pub struct RawFetch<H, E, K, V, S, P, W, A, L, Q, T, I = TagFinder<K>>
where
    H: Wait,
    E: Eviction,
    K: Key,
    V: Value,
    P: Properties,
    L: EventListener<Key = K, Value = V>,
    I: Finder<K>,
    Q: Pipe<Key = K, Value = V, Properties = P>,
    T: FetchTypes<K, V, P>,
{
    state: RawFetchState,
    fetch: Fetch,
    // Until the value is inserted.
    key: Option<K>,
    shares: Shares<H, E, K, V, S, P, W, A, L, Q, T::Required, I>,
    context: T::Context,
    // The builders, until their fetches are built.
    optional: Option<T::Optional>,
    required: Option<T::Required>,
    // The fetches, while they are polled.
    optional_fetch: Option<OptionalFuture<K, V, P, T>>,
    required_fetch: Option<RequiredFuture<K, V, P, T>>,
    // What the optional fetch failed with.
    fault: Option<Fault>,
}

/// What a task begins with.
pub(crate) struct Begin<K, C, O, F> {
    /// The fetch.
    pub(crate) fetch: Fetch,
    /// The key.
    pub(crate) key: K,
    /// The builders' context.
    pub(crate) context: C,
    /// The optional builder, if there is one.
    pub(crate) optional: Option<O>,
    /// The first caller's own required builder, if there is one.
    pub(crate) required: Option<F>,
}

impl<H, E, K, V, S, P, W, A, L, Q, T, I> RawFetch<H, E, K, V, S, P, W, A, L, Q, T, I>
where
    H: Wait,
    E: Eviction,
    K: Key,
    V: Value,
    P: Properties,
    L: EventListener<Key = K, Value = V>,
    I: Finder<K>,
    Q: Pipe<Key = K, Value = V, Properties = P>,
    T: FetchTypes<K, V, P>,
{
    // Makes a task.
    #[inline]
    pub(crate) fn new(
        shares: Shares<H, E, K, V, S, P, W, A, L, Q, T::Required, I>,
        begin: Begin<K, T::Context, T::Optional, T::Required>,
    ) -> Self {
        let Begin { fetch, key, context, optional, required } = begin;
        RawFetch {
            state: RawFetchState::Init,
            fetch,
            key: Some(key),
            shares,
            context,
            optional,
            required,
            optional_fetch: None,
            required_fetch: None,
            fault: None,
        }
    }

    /// Returns what the task is doing.
    #[inline]
    pub fn state(&self) -> RawFetchState {
        self.state
    }

    /// Cancels the task, as its drop does.
    #[inline]
    pub fn cancel(self) {
        drop(self);
    }

    // Goes to the state after an event.
    #[inline]
    fn step(&mut self, event: TaskEvent) {
        self.state = self.state.next(self.required.is_some(), event);
    }
}

impl<H, E, K, V, S, P, W, A, L, Q, T, I> Drop for RawFetch<H, E, K, V, S, P, W, A, L, Q, T, I>
where
    H: Wait,
    E: Eviction,
    K: Key,
    V: Value,
    P: Properties,
    L: EventListener<Key = K, Value = V>,
    I: Finder<K>,
    Q: Pipe<Key = K, Value = V, Properties = P>,
    T: FetchTypes<K, V, P>,
{
    #[inline]
    fn drop(&mut self) {
        let RawFetch {
            state,
            fetch,
            key,
            shares,
            context: _,
            optional: _,
            required: _,
            optional_fetch: _,
            required_fetch: _,
            fault: _,
        } = self;
        let state = *state;
        let key = key.take();
        if state == RawFetchState::Ready {
            return;
        }
        if let Some(key) = key {
            shares.end(fetch, &key, Error::new(Reason::TaskCancelled));
        }
    }
}

impl<H, E, K, V, S, P, W, A, L, Q, T, I> Debug for RawFetch<H, E, K, V, S, P, W, A, L, Q, T, I>
where
    H: Wait,
    E: Eviction,
    K: Key,
    V: Value,
    P: Properties,
    L: EventListener<Key = K, Value = V>,
    I: Finder<K>,
    Q: Pipe<Key = K, Value = V, Properties = P>,
    T: FetchTypes<K, V, P>,
{
    #[inline]
    fn fmt(&self, f: &mut fmt::Formatter<'_>) -> fmt::Result {
        f.debug_struct("RawFetch")
            .field("state", &self.state)
            .field("id", &self.fetch.id)
            .field("hash", &self.fetch.hash)
            .finish()
    }
}
