//! The poll of a task.

// Written by rust/erase/erase.py from crates/foyer_raw/src/fetch/task/polls.rt: change that.
#[allow(unused_imports)]
use crate::rattle_std::prelude::*;
use super::RawFetch;
use crate::proved::foyer_raw::fetch::{
    FetchTypes, OptionalFetchBuilder, RawFetchState, RequiredFetchBuilder, RequiredFuture, TaskEvent,
};
use crate::proved::foyer_raw::pipe::Pipe;
use crate::proved::foyer_core::{FetchOrTake, Filter, Finder, Weighter};
use crate::proved::foyer_policy::{EventListener, Eviction, HashBuilder, Key, Properties, Source, Value};
use crate::rattle_std::futures::Future;
use crate::rattle_std::futures::task::{Context, Poll};
use crate::rattle_std::sync::Wait;

impl<H, E, K, V, S, P, W, A, L, Q, T, I> Future for RawFetch<H, E, K, V, S, P, W, A, L, Q, T, I>
where
    H: Wait,
    E: Eviction,
    K: Key,
    V: Value,
    S: HashBuilder,
    P: Properties,
    W: Weighter<K, V>,
    A: Filter<K, V>,
    L: EventListener<Key = K, Value = V>,
    I: Finder<K>,
    Q: Pipe<Key = K, Value = V, Properties = P>,
    T: FetchTypes<K, V, P>,
{
    type Output = ();

    /// Goes on until a fetch is pending or the task ends, through at most five events. A task that has ended stays so.
    #[inline]
    fn poll(&mut self, cx: &mut Context<'_>) -> Poll<()> {
        match self.state {
            RawFetchState::Ready => Poll::Ready(()),
            RawFetchState::Init => {
                self.start();
                self.go_on(cx)
            }
            _ => self.go_on(cx),
        }
    }
}

impl<H, E, K, V, S, P, W, A, L, Q, T, I> RawFetch<H, E, K, V, S, P, W, A, L, Q, T, I>
where
    H: Wait,
    E: Eviction,
    K: Key,
    V: Value,
    S: HashBuilder,
    P: Properties,
    W: Weighter<K, V>,
    A: Filter<K, V>,
    L: EventListener<Key = K, Value = V>,
    I: Finder<K>,
    Q: Pipe<Key = K, Value = V, Properties = P>,
    T: FetchTypes<K, V, P>,
{
    // Builds the optional fetch, if there is a builder.
    #[inline]
    fn start(&mut self) {
        match self.optional.take() {
            Some(builder) => {
                self.optional_fetch = Some(builder.build(&mut self.context));
                self.step(TaskEvent::Start(true));
            }
            None => self.step(TaskEvent::Start(false)),
        }
    }

    // Goes on from the optional fetch.
    #[inline]
    fn go_on(&mut self, cx: &mut Context<'_>) -> Poll<()> {
        if self.state != RawFetchState::FetchOptional {
            return self.settle(cx);
        }
        if let Poll::Pending = self.poll_optional(cx) {
            return Poll::Pending;
        }
        if self.state == RawFetchState::Ready {
            return Poll::Ready(());
        }
        self.settle(cx)
    }

    // Goes on from the required fetch, or from giving results.
    #[inline]
    fn settle(&mut self, cx: &mut Context<'_>) -> Poll<()> {
        match self.state {
            RawFetchState::Notify => self.take_or_tell(),
            RawFetchState::FetchRequired => return self.poll_required(cx),
            _ => return Poll::Ready(()),
        }
        if self.state == RawFetchState::Ready {
            return Poll::Ready(());
        }
        self.poll_required(cx)
    }

    // Polls the optional fetch. A value ends the task.
    #[inline]
    fn poll_optional(&mut self, cx: &mut Context<'_>) -> Poll<()> {
        let Some(mut fetch) = self.optional_fetch.take() else {
            self.step(TaskEvent::Missing);
            return Poll::Ready(());
        };
        if !self.is_open() {
            self.step(TaskEvent::Closed);
            return Poll::Ready(());
        }
        match fetch.poll(cx) {
            Poll::Pending => {
                self.optional_fetch = Some(fetch);
                Poll::Pending
            }
            Poll::Ready(Ok(Some(target))) => {
                self.step(TaskEvent::Given);
                let key = self.key.take();
                self.complete(key, target, Source::Disk);
                self.step(TaskEvent::Told);
                Poll::Ready(())
            }
            Poll::Ready(Ok(None)) => {
                self.step(TaskEvent::Missing);
                Poll::Ready(())
            }
            Poll::Ready(Err(fault)) => {
                self.fault = Some(fault);
                self.step(TaskEvent::Missing);
                Poll::Ready(())
            }
        }
    }

    // Takes the required fetch, and builds it first if need be.
    #[inline]
    fn take_required(&mut self) -> Option<RequiredFuture<K, V, P, T>> {
        if let Some(fetch) = self.required_fetch.take() {
            return Some(fetch);
        }
        let builder = self.required.take()?;
        Some(builder.build(&mut self.context))
    }

    // Polls the required fetch. A value or a fault ends the task.
    #[inline]
    fn poll_required(&mut self, cx: &mut Context<'_>) -> Poll<()> {
        if !self.is_open() {
            self.step(TaskEvent::Closed);
            return Poll::Ready(());
        }
        let Some(mut fetch) = self.take_required() else {
            self.step(TaskEvent::Closed);
            return Poll::Ready(());
        };
        match fetch.poll(cx) {
            Poll::Pending => {
                self.required_fetch = Some(fetch);
                Poll::Pending
            }
            Poll::Ready(Ok(target)) => {
                self.step(TaskEvent::Given);
                let key = self.key.take();
                self.complete(key, target, Source::Outer);
                self.step(TaskEvent::Told);
                Poll::Ready(())
            }
            Poll::Ready(Err(fault)) => {
                self.step(TaskEvent::Given);
                self.fail(fault);
                self.step(TaskEvent::Told);
                Poll::Ready(())
            }
        }
    }

    // Takes a builder that a waiting caller brought, or else gives all that wait none, or the fault.
    #[inline]
    fn take_or_tell(&mut self) {
        match self.later() {
            Some(FetchOrTake::Fetch(builder)) => {
                self.required = Some(builder);
                self.step(TaskEvent::Taken);
            }
            Some(FetchOrTake::Notifiers(waiters)) => {
                let fault = self.fault.take();
                self.tell_nothing(waiters, fault);
                self.step(TaskEvent::Told);
            }
            None => self.step(TaskEvent::Closed),
        }
    }
}
