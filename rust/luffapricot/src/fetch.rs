//! Look-ups that fetch what is missing.

use crate::cache::Cache;
use crate::entry::CacheEntry;
use crate::error::{BoxError, Error, Result};
use crate::guard::{Held, Resumed, caught, resumed};
use crate::key::{Equivalent, Hashing, Name};
use crate::pipe::{BoxFuture, PipeOf};
use crate::properties::{CacheProperties, Properties, Props};
use crate::proved::foyer_core::TagFinder;
use crate::proved::foyer_policy::{self, AnyEviction, DefaultHasher};
use crate::proved::foyer_raw;
use crate::rattle_std::futures::future::Future as _;
use crate::rattle_std::rt::HostRuntime;
use crate::rules::{Admit, Key, Tell, Value, Weigh};
use crate::types::{Build, FetchTarget, Fetches, OptionalFetchBuilder, Required, RequiredFetchBuilder};
use std::fmt;
use std::hash::{BuildHasher, Hash};
use std::pin::Pin;
use std::task::{Context, Poll};

/// Runs the tasks of fetches, such as an executor. A closure that takes a [`BoxFuture`] is one.
pub trait Spawner: Send + Sync + 'static {
    /// Has the task polled until it is ready. If it is dropped before, those who wait get F15.
    fn spawn(&self, task: BoxFuture<()>);
}

impl<F: Fn(BoxFuture<()>) + Send + Sync + 'static> Spawner for F {
    fn spawn(&self, task: BoxFuture<()>) {
        self(task);
    }
}

type Look<K, V, S, P> = foyer_raw::RawGetOrFetch<
    HostRuntime,
    AnyEviction,
    Name<K>,
    Held<V>,
    Hashing<S>,
    Props<P>,
    Weigh<K, V>,
    Admit<K, V>,
    Tell<K, V>,
    PipeOf<K, V, P>,
    Required<K, V, P>,
    TagFinder<Name<K>>,
>;

type Task<K, V, S, P> = foyer_raw::RawFetch<
    HostRuntime,
    AnyEviction,
    Name<K>,
    Held<V>,
    Hashing<S>,
    Props<P>,
    Weigh<K, V>,
    Admit<K, V>,
    Tell<K, V>,
    PipeOf<K, V, P>,
    Fetches<K, V, P>,
    TagFinder<Name<K>>,
>;

// A look-up, or the error with which it failed, until that is given.
type Begun<K, V, S, P> = std::result::Result<Look<K, V, S, P>, Option<Error>>;

/// A hit, or a wait for a fetch: a future of the entry.
///
/// If there is no spawner, the first caller's `GetOrFetch` runs the fetch itself. A drop of it then ends the fetch, and
/// all others who wait get F15.
#[must_use = "a future does nothing unless it is polled"]
pub struct GetOrFetch<K: Key, V: Value, S: 'static = DefaultHasher, P: Properties = CacheProperties> {
    look: Resumed<Begun<K, V, S, P>>,
    task: Option<BoxFuture<()>>,
}

// Nothing in it is pinned in place.
impl<K: Key, V: Value, S, P: Properties> Unpin for GetOrFetch<K, V, S, P> {}

impl<K: Key, V: Value, S, P: Properties> GetOrFetch<K, V, S, P> {
    /// Returns whether the entry has to be waited for.
    pub fn need_await(&self) -> bool {
        self.look.as_ref().is_ok_and(Look::need_await)
    }

    /// Returns the entry of a hit, or itself if it has to wait or failed.
    pub fn try_unwrap(self) -> std::result::Result<CacheEntry<K, V, S, P>, Self> {
        let GetOrFetch { look, task } = self;
        let look = match look.into_inner().map(Look::try_unwrap) {
            Ok(Ok(Ok(entry))) => return Ok(CacheEntry::new(entry)),
            Ok(Ok(Err(error))) => Err(Some(error.into())),
            Ok(Err(look)) => Ok(look),
            Err(error) => Err(error),
        };
        Err(GetOrFetch { look: Resumed::new(look), task })
    }

    /// Polls, with no entry if an optional fetch found nothing and there was no required one.
    #[allow(clippy::type_complexity)]
    pub fn poll_inner(&mut self, cx: &mut Context<'_>) -> Poll<Result<Option<CacheEntry<K, V, S, P>>>> {
        let look = match &mut *self.look {
            Ok(look) => look,
            Err(error) => return Poll::Ready(Err(error.take().expect("polled after it was ready"))),
        };
        if self.task.as_mut().is_some_and(|task| task.as_mut().poll(cx).is_ready()) {
            self.task = None;
        }
        let ready = resumed(|| look.poll(cx));
        if ready.is_ready() {
            self.task = None;
        }
        ready.map(|result| Ok(result?.map(CacheEntry::new)))
    }
}

impl<K: Key, V: Value, S, P: Properties> Future for GetOrFetch<K, V, S, P> {
    type Output = Result<CacheEntry<K, V, S, P>>;

    fn poll(mut self: Pin<&mut Self>, cx: &mut Context<'_>) -> Poll<Self::Output> {
        self.poll_inner(cx).map(|result| result?.ok_or_else(Error::no_value))
    }
}

impl<K: Key, V: Value, S, P: Properties> fmt::Debug for GetOrFetch<K, V, S, P> {
    fn fmt(&self, f: &mut fmt::Formatter<'_>) -> fmt::Result {
        match &*self.look {
            Ok(look) => look.fmt(f),
            Err(error) => error.fmt(f),
        }
    }
}

// Takes the task of a fetch, if one is begun.
struct Taken<K: Key, V: Value, S: 'static, P: Properties>(Option<Run<K, V, S, P>>);

impl<K: Key, V: Value, S: BuildHasher + Send + Sync + 'static, P: Properties> foyer_raw::Spawner<Task<K, V, S, P>>
    for Taken<K, V, S, P>
{
    fn reserve(&mut self) -> foyer_policy::Result<()> {
        Ok(())
    }

    fn spawn(&mut self, task: Task<K, V, S, P>) {
        self.0 = Some(Run(Resumed::new(task)));
    }
}

// A task as one of Rust's futures, after each poll of which a panic of a user's code goes on.
struct Run<K: Key, V: Value, S: 'static, P: Properties>(Resumed<Task<K, V, S, P>>);

impl<K: Key, V: Value, S, P: Properties> Unpin for Run<K, V, S, P> {}

impl<K: Key, V: Value, S: BuildHasher + Send + Sync + 'static, P: Properties> Future for Run<K, V, S, P> {
    type Output = ();

    fn poll(self: Pin<&mut Self>, cx: &mut Context<'_>) -> Poll<()> {
        let task = &mut self.get_mut().0;
        resumed(|| task.poll(cx))
    }
}

impl<K, V, S, P> Cache<K, V, S, P>
where
    K: Key,
    V: Value,
    S: BuildHasher + Send + Sync + 'static,
    P: Properties,
{
    /// Returns an entry of the key's record, or if there is none, fetches it.
    ///
    /// If several callers ask for the same missing key, the first one's fetch runs and the others wait for its result.
    /// It runs as a task of the cache's spawner, or with the feature `tokio` of the current runtime, or else while the
    /// first caller's future is polled. An `insert` of the key meanwhile ends all waits with that record. `fetch` is
    /// called on each miss, at once; only the first caller's future is polled.
    ///
    /// # Errors
    /// The future gives F11 with the fetch's error or the message of its panic, for all who wait; F12 for a piece of
    /// another key; F15 if the task was dropped; F7 to F10 as `try_insert`.
    pub fn get_or_fetch<Q, F, FU, IT, ER>(&self, key: &Q, fetch: F) -> GetOrFetch<K, V, S, P>
    where
        Q: Hash + Equivalent<K> + ?Sized + ToOwned<Owned = K>,
        F: FnOnce() -> FU,
        FU: std::future::Future<Output = std::result::Result<IT, ER>> + Send + 'static,
        IT: Into<FetchTarget<K, V, P>>,
        ER: Into<BoxError>,
    {
        let build = || -> RequiredFetchBuilder<K, V, P> {
            let future = fetch();
            Box::new(|| Box::pin(async { future.await.map(Into::into).map_err(Into::into) }))
        };
        self.get_or_fetch_inner(key, || None, || Some(build()))
    }

    /// Returns an entry of the key's record, or if there is none, tries an optional fetch and then a required one.
    ///
    /// `fo` is called if this call begins a fetch, and `fr` on each miss: a required builder that comes to a fetch that
    /// has none is kept for it. If nothing is found and nobody brought a required builder, `poll_inner` gives no entry
    /// and the future F13.
    pub fn get_or_fetch_inner<Q, FO, FR>(&self, key: &Q, fo: FO, fr: FR) -> GetOrFetch<K, V, S, P>
    where
        Q: Hash + Equivalent<K> + ?Sized + ToOwned<Owned = K>,
        FO: FnOnce() -> Option<OptionalFetchBuilder<K, V, P>>,
        FR: FnOnce() -> Option<RequiredFetchBuilder<K, V, P>>,
    {
        if let Some(hit) = self.get_first(key).transpose() {
            let look = hit.map(|entry| Look::Hit(Some(entry))).map_err(|error| Some(error.into()));
            return GetOrFetch { look: Resumed::new(look), task: None };
        }
        let (mut taken, context) = (Taken(None), self.clock.clone());
        // `fr` is called before anything has begun, and `fo` once the fetch is open, which a panic must not keep open.
        let (fo, fr) = (|| caught(fo).flatten().map(Build::new), || fr().map(Build::new));
        let look = resumed(|| {
            let name = Name::new(key.to_owned());
            self.inner.get_or_fetch_inner(self.clock.read(), &name, fo, fr, context, &mut taken)
        });
        let look = Resumed::new(look.map_err(|error| Some(error.into())));
        let task = taken.0.and_then(|task| self.run(Box::pin(task)));
        GetOrFetch { look, task }
    }

    // Gives a task to the spawner, or back if there is none.
    fn run(&self, task: BoxFuture<()>) -> Option<BoxFuture<()>> {
        if let Some(spawner) = &self.spawner {
            spawner.spawn(task);
            return None;
        }
        #[cfg(feature = "tokio")]
        if let Ok(runtime) = tokio::runtime::Handle::try_current() {
            runtime.spawn(task);
            return None;
        }
        Some(task)
    }
}
