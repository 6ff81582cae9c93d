//! The futures of flushes.

// Written by rust/erase/erase.py from crates/foyer_raw/src/flush.rt: change that.
#[allow(unused_imports)]
use crate::rattle_std::prelude::*;
use crate::proved::foyer_policy::{Error, Result};
use crate::rattle_std::futures::Future;
use crate::rattle_std::futures::task::{Context, Poll};

/// The future of a flush, which ends once the pipe has taken the pieces.
///
/// The evictions were made before it was returned. It gives the error of the flush, if there was one.
pub struct Flush<F: Future<Output = ()>> {
    inner: Option<F>,
    refused: Option<Error>,
}

/// The future of a flush by a predicate.
pub type FlushIf<F> = Flush<F>;

impl<F: Future<Output = ()>> Flush<F> {
    // Makes a flush that waits for this future, which may be polled, and then gives this result.
    #[inline]
    pub(crate) fn new(inner: Option<F>, done: Result<()>) -> Self {
        Flush { inner, refused: done.err() }
    }
}

impl<F: Future<Output = ()>> Future for Flush<F> {
    type Output = Result<()>;

    #[inline]
    fn poll(&mut self, cx: &mut Context<'_>) -> Poll<Result<()>> {
        if let Some(mut inner) = self.inner.take() {
            if let Poll::Pending = inner.poll(cx) {
                self.inner = Some(inner);
                return Poll::Pending;
            }
        }
        match self.refused.take() {
            Some(error) => Poll::Ready(Err(error)),
            None => Poll::Ready(Ok(())),
        }
    }
}
