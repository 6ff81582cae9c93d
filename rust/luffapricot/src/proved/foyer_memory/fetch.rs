//! The result of a look-up that fetches what is missing.

// Written by rust/erase/erase.py from crates/foyer_memory/src/fetch.rt: change that.
#[allow(unused_imports)]
use crate::rattle_std::prelude::*;
use crate::proved::foyer_memory::entry::CacheEntry;
use crate::proved::foyer_memory::kind::Kind;
use crate::proved::foyer_memory::of::Of;
use crate::proved::foyer_memory::policy_config::PolicyConfig;
use crate::proved::foyer_core::{AdmitAll, CacheProperties, Finder, TagFinder, UnitWeighter};
use crate::proved::foyer_policy::{
    AnyEviction, DefaultHasher, Error, EventListener, Key, Properties, Reason, Result, Value,
};
use crate::proved::foyer_raw::{FetchTypes, NoFetch, NoListener, NoopPipe, Pipe, RawFetch, RawGetOrFetch};
use crate::rattle_std::futures::Future;
use crate::rattle_std::futures::task::{Context, Poll};
use crate::rattle_std::fmt::{self, Debug};
use crate::rattle_std::sync::Wait;

/// The task that fetches a missing key of a `Cache` for all that wait for it. A spawner takes it and has it polled.
pub type FetchTask<
    H,
    K,
    V,
    S = DefaultHasher,
    P = CacheProperties,
    W = UnitWeighter,
    A = AdmitAll,
    L = NoListener<K, V>,
    Q = NoopPipe<K, V, P>,
    T = NoFetch,
    I = TagFinder<K>,
> = RawFetch<H, AnyEviction, K, V, S, P, W, A, L, Q, T, I>;

/// A future of an entry, which is ready at once on a hit.
pub struct GetOrFetch<
    H,
    K,
    V,
    S = DefaultHasher,
    P = CacheProperties,
    W = UnitWeighter,
    A = AdmitAll,
    L = NoListener<K, V>,
    Q = NoopPipe<K, V, P>,
    T = NoFetch,
    I = TagFinder<K>,
> where
    H: Wait,
    K: Key,
    V: Value,
    P: Properties,
    L: EventListener<Key = K, Value = V>,
    I: Finder<K>,
    Q: Pipe<Key = K, Value = V, Properties = P>,
    T: FetchTypes<K, V, P>,
{
    pub(crate) look: RawGetOrFetch<H, AnyEviction, K, V, S, P, W, A, L, Q, T::Required, I>,
    pub(crate) kind: Kind,
}

impl<H, K, V, S, P, W, A, L, Q, T, I> GetOrFetch<H, K, V, S, P, W, A, L, Q, T, I>
where
    H: Wait,
    K: Key,
    V: Value,
    P: Properties,
    L: EventListener<Key = K, Value = V>,
    I: Finder<K>,
    Q: Pipe<Key = K, Value = V, Properties = P>,
    T: FetchTypes<K, V, P>,
{
    /// Returns the policy of the cache.
    #[inline]
    pub fn kind(&self) -> Kind {
        self.kind
    }

    /// Returns the look-up with its policy in the type, or unchanged if its policy isn't the one that `C` configures.
    #[inline]
    pub fn of_policy<C: PolicyConfig>(self) -> crate::rattle_std::result::Result<Of<C, Self>, Self> {
        if self.kind == C::kind() { Ok(Of::new_of(self)) } else { Err(self) }
    }

    /// Returns whether the look-up missed, so that its entry is still to come.
    #[inline]
    pub fn need_await(&self) -> bool {
        self.look.need_await()
    }

    /// Returns the entry of a hit, or a miss unchanged.
    ///
    /// # Errors
    /// F16 if the entry of a hit was taken before.
    #[inline]
    pub fn try_unwrap(
        self,
    ) -> crate::rattle_std::result::Result<Result<CacheEntry<H, K, V, S, P, W, A, L, Q, T, I>>, Self> {
        let GetOrFetch { look, kind } = self;
        match look.try_unwrap() {
            Ok(Ok(entry)) => Ok(Ok(CacheEntry { entry, kind })),
            Ok(Err(error)) => Ok(Err(error)),
            Err(look) => Err(GetOrFetch { look, kind }),
        }
    }

    /// Polls as `poll` does, but gives `None` if the fetch found nothing.
    #[inline]
    pub fn poll_inner(
        &mut self,
        cx: &mut Context<'_>,
    ) -> Poll<Result<Option<CacheEntry<H, K, V, S, P, W, A, L, Q, T, I>>>> {
        match self.look.poll(cx) {
            Poll::Ready(Ok(Some(entry))) => Poll::Ready(Ok(Some(CacheEntry { entry, kind: self.kind }))),
            Poll::Ready(Ok(None)) => Poll::Ready(Ok(None)),
            Poll::Ready(Err(error)) => Poll::Ready(Err(error)),
            Poll::Pending => Poll::Pending,
        }
    }
}

impl<H, K, V, S, P, W, A, L, Q, T, I> Future for GetOrFetch<H, K, V, S, P, W, A, L, Q, T, I>
where
    H: Wait,
    K: Key,
    V: Value,
    P: Properties,
    L: EventListener<Key = K, Value = V>,
    I: Finder<K>,
    Q: Pipe<Key = K, Value = V, Properties = P>,
    T: FetchTypes<K, V, P>,
{
    type Output = Result<CacheEntry<H, K, V, S, P, W, A, L, Q, T, I>>;

    /// Gives the entry once it is there.
    ///
    /// # Errors
    /// F13 if the fetch found nothing, F16 if a result was given before, otherwise the error with which the fetch ended.
    #[inline]
    fn poll(&mut self, cx: &mut Context<'_>) -> Poll<Self::Output> {
        match self.poll_inner(cx) {
            Poll::Ready(Ok(Some(entry))) => Poll::Ready(Ok(entry)),
            Poll::Ready(Ok(None)) => Poll::Ready(Err(Error::new(Reason::NoValue))),
            Poll::Ready(Err(error)) => Poll::Ready(Err(error)),
            Poll::Pending => Poll::Pending,
        }
    }
}

impl<H, K, V, S, P, W, A, L, Q, T, I> Debug for GetOrFetch<H, K, V, S, P, W, A, L, Q, T, I>
where
    H: Wait,
    K: Key,
    V: Value,
    P: Properties,
    L: EventListener<Key = K, Value = V>,
    I: Finder<K>,
    Q: Pipe<Key = K, Value = V, Properties = P>,
    T: FetchTypes<K, V, P>,
{
    #[inline]
    fn fmt(&self, f: &mut fmt::Formatter<'_>) -> fmt::Result {
        f.debug_tuple(self.kind.name()).field(&self.look).finish()
    }
}
