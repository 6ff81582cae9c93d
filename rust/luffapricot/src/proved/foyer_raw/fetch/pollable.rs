//! A future that may be polled, with the fact in its type.

// Written by rust/erase/erase.py from crates/foyer_raw/src/fetch/pollable.rt: change that.
#[allow(unused_imports)]
use crate::rattle_std::prelude::*;
use crate::rattle_std::futures::Future;

/// A future that may be polled.
///
/// A builder keeps one: the fact that it may be polled has to last under a lock, where no clause can follow it.
pub struct Pollable<F: Future> {
    future: F,
}

impl<F: Future> Pollable<F> {
    /// Keeps a future that may be polled.
    #[inline]
    pub fn new(future: F) -> Pollable<F> {
        Pollable { future }
    }

    /// Returns the future, which may be polled.
    #[inline]
    pub fn into_inner(self) -> F {
        let Pollable { future } = self;
        future
    }
}
