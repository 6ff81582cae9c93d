//! What a caller waits with.

// Written by rust/erase/erase.py from crates/foyer_raw/src/fetch/wait.rt: change that.
#[allow(unused_imports)]
use crate::rattle_std::prelude::*;
use crate::proved::foyer_raw::entry::RawCacheEntry;
use crate::proved::foyer_raw::pipe::Pipe;
use crate::proved::foyer_raw::shares::Shares;
use crate::proved::foyer_raw::ticket::{Answer, Waiter};
use crate::proved::foyer_core::{Finder, TagFinder};
use crate::proved::foyer_policy::{Error, EventListener, Eviction, Key, Properties, Reason, Result, Value};
use crate::rattle_std::futures::Future;
use crate::rattle_std::futures::channel::oneshot::Canceled;
use crate::rattle_std::futures::task::{Context, Poll};
use crate::rattle_std::fmt::{self, Debug};
use crate::rattle_std::sync::Wait;

/// A future of an entry, or of none. If it is dropped, it gives back the handle that it was sent, if any.
pub struct RawWait<H, E, K, V, S, P, W, A, L, Q, R, I = TagFinder<K>>
where
    H: Wait,
    E: Eviction,
    K: Key,
    V: Value,
    P: Properties,
    L: EventListener<Key = K, Value = V>,
    I: Finder<K>,
    Q: Pipe<Key = K, Value = V, Properties = P>,
{
    // Until the result came.
    open: Option<(Shares<H, E, K, V, S, P, W, A, L, Q, R, I>, Waiter<Answer<K, V, P>>)>,
}

impl<H, E, K, V, S, P, W, A, L, Q, R, I> RawWait<H, E, K, V, S, P, W, A, L, Q, R, I>
where
    H: Wait,
    E: Eviction,
    K: Key,
    V: Value,
    P: Properties,
    L: EventListener<Key = K, Value = V>,
    I: Finder<K>,
    Q: Pipe<Key = K, Value = V, Properties = P>,
{
    // Makes a wait for what this receiver gets.
    #[inline]
    pub(crate) fn new(shares: Shares<H, E, K, V, S, P, W, A, L, Q, R, I>, waiter: Waiter<Answer<K, V, P>>) -> Self {
        RawWait { open: Some((shares, waiter)) }
    }

    // Returns the result if it came already, and else the wait unchanged.
    #[inline]
    pub(crate) fn try_now(
        mut self,
    ) -> crate::rattle_std::result::Result<Result<Option<RawCacheEntry<H, E, K, V, S, P, W, A, L, Q, R, I>>>, Self>
    {
        let Some((shares, mut waiter)) = self.open.take() else {
            return Ok(Err(Error::new(Reason::Spent)));
        };
        match waiter.try_recv() {
            Ok(Some(answer)) => Ok(Self::entry_of(shares, Ok(answer))),
            Ok(None) => {
                self.open = Some((shares, waiter));
                Err(self)
            }
            Err(canceled) => Ok(Self::entry_of(shares, Err(canceled))),
        }
    }

    // The entry of what came through the channel, if one did.
    #[inline]
    fn entry_of(
        shares: Shares<H, E, K, V, S, P, W, A, L, Q, R, I>,
        received: crate::rattle_std::result::Result<Result<Answer<K, V, P>>, Canceled>,
    ) -> Result<Option<RawCacheEntry<H, E, K, V, S, P, W, A, L, Q, R, I>>> {
        match received {
            Ok(Ok(Some(ticket))) => match ticket.into_core() {
                Some(core) => Ok(Some(shares.entry(core))),
                None => Ok(None),
            },
            Ok(Ok(None)) => Ok(None),
            Ok(Err(error)) => Err(error),
            Err(_) => Err(Error::new(Reason::ChannelClosed)),
        }
    }
}

impl<H, E, K, V, S, P, W, A, L, Q, R, I> Drop for RawWait<H, E, K, V, S, P, W, A, L, Q, R, I>
where
    H: Wait,
    E: Eviction,
    K: Key,
    V: Value,
    P: Properties,
    L: EventListener<Key = K, Value = V>,
    I: Finder<K>,
    Q: Pipe<Key = K, Value = V, Properties = P>,
{
    #[inline]
    fn drop(&mut self) {
        let RawWait { open } = self;
        let open = open.take();
        let Some((shares, mut waiter)) = open else {
            return;
        };
        // From here on a sender has its answer back.
        waiter.close();
        if let Ok(Some(Ok(Some(ticket)))) = waiter.try_recv() {
            if let Some(core) = ticket.into_core() {
                shares.give_back(core);
            }
        }
    }
}

impl<H, E, K, V, S, P, W, A, L, Q, R, I> Future for RawWait<H, E, K, V, S, P, W, A, L, Q, R, I>
where
    H: Wait,
    E: Eviction,
    K: Key,
    V: Value,
    P: Properties,
    L: EventListener<Key = K, Value = V>,
    I: Finder<K>,
    Q: Pipe<Key = K, Value = V, Properties = P>,
{
    type Output = Result<Option<RawCacheEntry<H, E, K, V, S, P, W, A, L, Q, R, I>>>;

    /// Gives the result once it came: an entry, or none if the fetch found nothing.
    ///
    /// # Errors
    /// F14 if the sender is gone, F16 if a result was given before, otherwise the error with which the fetch ended.
    #[inline]
    fn poll(&mut self, cx: &mut Context<'_>) -> Poll<Self::Output> {
        let Some((shares, mut waiter)) = self.open.take() else {
            return Poll::Ready(Err(Error::new(Reason::Spent)));
        };
        let Poll::Ready(received) = waiter.poll(cx) else {
            self.open = Some((shares, waiter));
            return Poll::Pending;
        };
        Poll::Ready(Self::entry_of(shares, received))
    }
}

impl<H, E, K, V, S, P, W, A, L, Q, R, I> Debug for RawWait<H, E, K, V, S, P, W, A, L, Q, R, I>
where
    H: Wait,
    E: Eviction,
    K: Key,
    V: Value,
    P: Properties,
    L: EventListener<Key = K, Value = V>,
    I: Finder<K>,
    Q: Pipe<Key = K, Value = V, Properties = P>,
{
    #[inline]
    fn fmt(&self, f: &mut fmt::Formatter<'_>) -> fmt::Result {
        f.debug_struct("RawWait").finish()
    }
}

/// The result of a look-up that fetches what is missing: an entry at once, or a wait.
pub enum RawGetOrFetch<H, E, K, V, S, P, W, A, L, Q, R, I = TagFinder<K>>
where
    H: Wait,
    E: Eviction,
    K: Key,
    V: Value,
    P: Properties,
    L: EventListener<Key = K, Value = V>,
    I: Finder<K>,
    Q: Pipe<Key = K, Value = V, Properties = P>,
{
    /// The entry, until it is taken.
    Hit(Option<RawCacheEntry<H, E, K, V, S, P, W, A, L, Q, R, I>>),
    /// A wait for the entry that is fetched.
    Miss(RawWait<H, E, K, V, S, P, W, A, L, Q, R, I>),
}

impl<H, E, K, V, S, P, W, A, L, Q, R, I> RawGetOrFetch<H, E, K, V, S, P, W, A, L, Q, R, I>
where
    H: Wait,
    E: Eviction,
    K: Key,
    V: Value,
    P: Properties,
    L: EventListener<Key = K, Value = V>,
    I: Finder<K>,
    Q: Pipe<Key = K, Value = V, Properties = P>,
{
    /// Returns whether the look-up missed, so that its entry is still to come.
    #[inline]
    pub fn need_await(&self) -> bool {
        matches!(self, RawGetOrFetch::Miss(_))
    }

    /// Returns the entry of a hit, or a miss unchanged.
    ///
    /// # Errors
    /// F16 if the entry of a hit was taken before.
    #[inline]
    pub fn try_unwrap(
        self,
    ) -> crate::rattle_std::result::Result<Result<RawCacheEntry<H, E, K, V, S, P, W, A, L, Q, R, I>>, Self> {
        match self {
            RawGetOrFetch::Hit(Some(entry)) => Ok(Ok(entry)),
            RawGetOrFetch::Hit(None) => Ok(Err(Error::new(Reason::Spent))),
            RawGetOrFetch::Miss(wait) => Err(RawGetOrFetch::Miss(wait)),
        }
    }
}

impl<H, E, K, V, S, P, W, A, L, Q, R, I> Future for RawGetOrFetch<H, E, K, V, S, P, W, A, L, Q, R, I>
where
    H: Wait,
    E: Eviction,
    K: Key,
    V: Value,
    P: Properties,
    L: EventListener<Key = K, Value = V>,
    I: Finder<K>,
    Q: Pipe<Key = K, Value = V, Properties = P>,
{
    type Output = Result<Option<RawCacheEntry<H, E, K, V, S, P, W, A, L, Q, R, I>>>;

    /// Gives the entry of a hit, or the result of the wait.
    ///
    /// # Errors
    /// F16 if a result was given before, otherwise the errors of the wait.
    #[inline]
    fn poll(&mut self, cx: &mut Context<'_>) -> Poll<Self::Output> {
        match self {
            RawGetOrFetch::Hit(entry) => match entry.take() {
                Some(entry) => Poll::Ready(Ok(Some(entry))),
                None => Poll::Ready(Err(Error::new(Reason::Spent))),
            },
            RawGetOrFetch::Miss(wait) => wait.poll(cx),
        }
    }
}

impl<H, E, K, V, S, P, W, A, L, Q, R, I> Debug for RawGetOrFetch<H, E, K, V, S, P, W, A, L, Q, R, I>
where
    H: Wait,
    E: Eviction,
    K: Key,
    V: Value,
    P: Properties,
    L: EventListener<Key = K, Value = V>,
    I: Finder<K>,
    Q: Pipe<Key = K, Value = V, Properties = P>,
{
    #[inline]
    fn fmt(&self, f: &mut fmt::Formatter<'_>) -> fmt::Result {
        f.write_str(match self {
            RawGetOrFetch::Hit(_) => "Hit",
            RawGetOrFetch::Miss(_) => "Miss",
        })
    }
}
