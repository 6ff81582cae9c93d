//! Ways in which a task ends its fetch.

// Written by rust/erase/erase.py from crates/foyer_raw/src/fetch/task/ends.rt: change that.
#[allow(unused_imports)]
use crate::rattle_std::prelude::*;
use super::RawFetch;
use crate::proved::foyer_raw::counted::Later;
use crate::proved::foyer_raw::fetch::FetchTypes;
use crate::proved::foyer_raw::pipe::Pipe;
use crate::proved::foyer_raw::ticket::{Waiters, refuse, tell_none};
use crate::proved::foyer_core::{FetchOrTake, FetchTarget, Filter, Finder, Piece, Weighter};
use crate::proved::foyer_policy::{EventListener, Eviction, Fault, HashBuilder, Key, Properties, Source, Value};
use crate::rattle_std::sync::Wait;

impl<H, E, K, V, S, P, W, A, L, Q, T, I> RawFetch<H, E, K, V, S, P, W, A, L, Q, T, I>
where
    H: Wait,
    E: Eviction,
    K: Key,
    V: Value,
    S: HashBuilder,
    P: Properties,
    W: Weighter<K, V>,
    A: Filter<K, V>,
    L: EventListener<Key = K, Value = V>,
    I: Finder<K>,
    Q: Pipe<Key = K, Value = V, Properties = P>,
    T: FetchTypes<K, V, P>,
{
    // Returns whether the fetch is open.
    #[inline]
    pub(crate) fn is_open(&self) -> bool {
        let Some(key) = &self.key else {
            return false;
        };
        let key = self.fetch.hashed(key);
        self.shares.of(&key).is_open(key, self.fetch.id)
    }

    // Ends the fetch with what was fetched, inserted at the first caller's `now`, and gives all that wait their result. If
    // the fetch isn't open, nothing changes.
    #[inline]
    pub(crate) fn complete(&self, key: Option<K>, target: FetchTarget<K, V, P>, source: Source) {
        let Some(key) = key else {
            return;
        };
        match target {
            FetchTarget::Entry { value, properties } => {
                self.shares.complete(self.fetch, key, value, properties, source)
            }
            FetchTarget::Piece(piece) => self.complete_piece(&key, piece),
        }
    }

    // Ends the fetch with a piece.
    #[inline]
    fn complete_piece(&self, key: &K, piece: Piece<K, V, P>) {
        let ended = self.shares.shared.complete_piece(self.fetch.now, self.fetch.hashed(key), self.fetch.id, piece);
        self.shares.ended(ended);
    }

    // Ends the fetch with a fault.
    #[inline]
    pub(crate) fn fail(&self, fault: Fault) {
        if let Some(key) = &self.key {
            self.shares.fail(self.fetch, key, fault);
        }
    }

    // Returns a builder that a waiting caller brought, or else the waiting callers; none if the fetch isn't open.
    #[inline]
    pub(crate) fn later(&self) -> Option<Later<K, V, P, T::Required>> {
        let key = self.fetch.hashed(self.key.as_ref()?);
        self.shares.of(&key).fetch_or_take(key, self.fetch.id)
    }

    // Gives all that wait the fault, or none.
    #[inline]
    pub(crate) fn tell_nothing(&self, waiters: Waiters<K, V, P>, fault: Option<Fault>) {
        match fault {
            Some(fault) => refuse(waiters, self.shares.refusal(fault)),
            None => tell_none(waiters),
        }
    }
}
