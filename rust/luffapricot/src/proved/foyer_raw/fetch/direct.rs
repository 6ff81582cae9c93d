//! Fetch types without a fetch, and with one required future.

// Written by rust/erase/erase.py from crates/foyer_raw/src/fetch/direct.rt: change that.
#[allow(unused_imports)]
use crate::rattle_std::prelude::*;
use super::pollable::Pollable;
use super::types::{FetchTypes, OptionalFetchBuilder, RequiredFetch, RequiredFetchBuilder};
use crate::proved::foyer_core::FetchTarget;
use crate::proved::foyer_policy::Fault;
use crate::rattle_std::futures::Future;
use crate::rattle_std::futures::task::{Context, Poll};
use crate::rattle_std::marker::PhantomData;

/// Fetch types, and a builder, for a cache that fetches nothing.
#[derive(Clone, Copy, Debug)]
pub struct NoFetch;

/// The future of `NoFetch`, which is never ready.
pub struct Never<O>(PhantomData<O>);

impl<O> Future for Never<O> {
    type Output = O;

    #[inline]
    fn poll(&mut self, cx: &mut Context<'_>) -> Poll<O> {
        cx.yield_now()
    }
}

impl<K, V, P, C> OptionalFetchBuilder<K, V, P, C> for NoFetch {
    type Fetch = Never<Result<Option<FetchTarget<K, V, P>>, Fault>>;

    #[inline]
    fn build(self, _context: &mut C) -> Self::Fetch {
        Never(PhantomData)
    }
}

impl<K, V, P, C> RequiredFetchBuilder<K, V, P, C> for NoFetch {
    type Fetch = Never<Result<FetchTarget<K, V, P>, Fault>>;

    #[inline]
    fn build(self, _context: &mut C) -> Self::Fetch {
        Never(PhantomData)
    }
}

impl<K, V, P> FetchTypes<K, V, P> for NoFetch {
    type Context = ();

    type Optional = NoFetch;

    type Required = NoFetch;
}

/// A builder that returns the future that it holds.
pub struct Given<R: Future> {
    /// The future.
    pub fetch: Pollable<R>,
}

impl<K, V, P, C, R: RequiredFetch<K, V, P>> RequiredFetchBuilder<K, V, P, C> for Given<R> {
    type Fetch = R;

    #[inline]
    fn build(self, _context: &mut C) -> R {
        let Given { fetch } = self;
        fetch.into_inner()
    }
}

/// Fetch types for `get_or_fetch`: a required future `R` of the caller's, with no context and no optional fetch.
pub struct Direct<R>(PhantomData<R>);

impl<K, V, P, R: RequiredFetch<K, V, P>> FetchTypes<K, V, P> for Direct<R> {
    type Context = ();

    type Optional = NoFetch;

    type Required = Given<R>;
}
