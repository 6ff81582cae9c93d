//! The futures and builders of fetches.

// Written by rust/erase/erase.py from crates/foyer_raw/src/fetch/types.rt: change that.
#[allow(unused_imports)]
use crate::rattle_std::prelude::*;
use crate::proved::foyer_core::FetchTarget;
use crate::proved::foyer_policy::Fault;
use crate::rattle_std::futures::Future;

/// A future of a value or a piece that may be missing, or of a fault.
pub trait OptionalFetch<K, V, P>: Future<Output = Result<Option<FetchTarget<K, V, P>>, Fault>> {}

impl<K, V, P, F: Future<Output = Result<Option<FetchTarget<K, V, P>>, Fault>>> OptionalFetch<K, V, P> for F {}

/// A future of a value or a piece, or of a fault.
pub trait RequiredFetch<K, V, P>: Future<Output = Result<FetchTarget<K, V, P>, Fault>> {}

impl<K, V, P, F: Future<Output = Result<FetchTarget<K, V, P>, Fault>>> RequiredFetch<K, V, P> for F {}

/// Makes an optional fetch from a context.
pub trait OptionalFetchBuilder<K, V, P, C>: Sized {
    /// The fetch.
    type Fetch: OptionalFetch<K, V, P>;

    /// Returns the fetch, which may be polled.
    fn build(self, context: &mut C) -> Self::Fetch;
}

/// Makes a required fetch from a context.
pub trait RequiredFetchBuilder<K, V, P, C>: Sized {
    /// The fetch.
    type Fetch: RequiredFetch<K, V, P>;

    /// Returns the fetch, which may be polled.
    fn build(self, context: &mut C) -> Self::Fetch;
}

/// What a cache fetches with: the builders of its fetches, and their context.
pub trait FetchTypes<K, V, P> {
    /// The builders' context.
    type Context;

    /// The builder of optional fetches, which run first.
    type Optional: OptionalFetchBuilder<K, V, P, Self::Context>;

    /// The builder of required fetches.
    type Required: RequiredFetchBuilder<K, V, P, Self::Context>;
}

/// The future of an optional fetch.
pub type OptionalFuture<K, V, P, T> =
    <<T as FetchTypes<K, V, P>>::Optional as OptionalFetchBuilder<K, V, P, <T as FetchTypes<K, V, P>>::Context>>::Fetch;

/// The future of a required fetch.
pub type RequiredFuture<K, V, P, T> =
    <<T as FetchTypes<K, V, P>>::Required as RequiredFetchBuilder<K, V, P, <T as FetchTypes<K, V, P>>::Context>>::Fetch;
