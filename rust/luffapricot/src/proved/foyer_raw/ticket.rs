//! Handles on their way through a channel.

// Written by rust/erase/erase.py from crates/foyer_raw/src/ticket.rt: change that.
#[allow(unused_imports)]
use crate::rattle_std::prelude::*;
use crate::proved::foyer_core::{CoreEntry, Waiting};
use crate::proved::foyer_policy::{Error, Result};
use crate::rattle_std::futures::channel::oneshot;

/// The receiver of a result.
pub type Waiter<X> = oneshot::Receiver<Result<X>>;

/// The sender of a result.
pub type Notifier<X> = oneshot::Sender<Result<X>>;

/// What a caller that waits for a key gets: a handle of its record, or none.
pub type Answer<K, V, P> = Option<Ticket<K, V, P>>;

/// A handle on its way through a channel.
///
/// It holds no lock and no cache, so a shard may keep the sender of one. The receiver makes an entry of it. If it is
/// dropped, the handle isn't given back.
pub struct Ticket<K, V, P> {
    core: Option<CoreEntry<K, V, P>>,
}

impl<K, V, P> Drop for Ticket<K, V, P> {
    #[inline]
    fn drop(&mut self) {
        let Ticket { core } = self;
        let core = core.take();
        if let Some(core) = core {
            core.discard();
        }
    }
}

impl<K, V, P> Ticket<K, V, P> {
    /// Makes a ticket of a handle.
    #[inline]
    pub(crate) fn new(core: CoreEntry<K, V, P>) -> Self {
        Ticket { core: Some(core) }
    }

    /// Returns the handle.
    #[inline]
    pub(crate) fn into_core(mut self) -> Option<CoreEntry<K, V, P>> {
        self.core.take()
    }
}

/// The callers that wait for a key.
pub(crate) type Waiters<K, V, P> = Vec<Waiting<Notifier<Answer<K, V, P>>>>;

// Sends each waiting caller the error, or F7 if a reference count of its fault is full.
#[inline]
pub(crate) fn refuse<K, V, P>(waiters: Waiters<K, V, P>, error: Error) {
    for waiting in waiters {
        let again = match error.try_clone() {
            Ok(again) => again,
            Err(refused) => Error::from(refused),
        };
        let _sent = waiting.waiter.send(Err(again));
    }
}

// Sends each waiting caller `None`.
#[inline]
pub(crate) fn tell_none<K, V, P>(waiters: Waiters<K, V, P>) {
    for waiting in waiters {
        let _sent = waiting.waiter.send(Ok(None));
    }
}
