//! Fetches as the proved code runs them: builders and futures in boxes, whose panics become faults.

use crate::clock::Clock;
use crate::error::{BoxError, fault_of};
use crate::guard::{Held, caught, discard, drop_late, take_panic};
use crate::key::Name;
use crate::pipe::{BoxFuture, Piece};
use crate::properties::{Properties, Props};
use crate::proved::foyer_core;
use crate::proved::foyer_policy::Fault;
use crate::proved::foyer_raw;
use crate::rules::{Key, Value};
use crate::rattle_std::string::String as Text;
use crate::rattle_std::sync::Arc;
use std::any::Any;
use std::marker::PhantomData;
use std::pin::Pin;
use std::task::{Context, Poll};

/// What a fetch gives: a value with its properties, or a piece of the key's record.
pub enum FetchTarget<K, V, P> {
    /// A value.
    Entry {
        /// The value.
        value: V,
        /// The properties.
        properties: P,
    },
    /// A piece.
    Piece(Piece<K, V, P>),
}

impl<K, V, P: Default> From<V> for FetchTarget<K, V, P> {
    fn from(value: V) -> Self {
        FetchTarget::Entry { value, properties: P::default() }
    }
}

impl<K, V, P> From<Piece<K, V, P>> for FetchTarget<K, V, P> {
    fn from(piece: Piece<K, V, P>) -> Self {
        FetchTarget::Piece(piece)
    }
}

/// What an optional fetch gives: nothing if it found nothing.
pub type OptionalFetch<T> = BoxFuture<Result<Option<T>, BoxError>>;

/// What a required fetch gives.
pub type RequiredFetch<T> = BoxFuture<Result<T, BoxError>>;

/// Begins an optional fetch, such as of a disk.
pub type OptionalFetchBuilder<K, V, P> = Box<dyn FnOnce() -> OptionalFetch<FetchTarget<K, V, P>> + Send>;

/// Begins a required fetch.
pub type RequiredFetchBuilder<K, V, P> = Box<dyn FnOnce() -> RequiredFetch<FetchTarget<K, V, P>> + Send>;

/// The fetch types of every cache of this crate.
pub(crate) struct Fetches<K, V, P>(PhantomData<fn(K, V, P)>);

pub(crate) type Target<K, V, P> = foyer_core::FetchTarget<Name<K>, Held<V>, Props<P>>;

impl<K: Key, V: Value, P: Properties> foyer_raw::FetchTypes<Name<K>, Held<V>, Props<P>> for Fetches<K, V, P> {
    type Context = Arc<Clock>;

    type Optional = Optional<K, V, P>;

    type Required = Required<K, V, P>;
}

/// A user's builder of a fetch. One that isn't called may be dropped under a lock.
pub(crate) struct Build<B: 'static>(Option<B>);

impl<B> Build<B> {
    pub(crate) fn new(builder: B) -> Self {
        Build(Some(builder))
    }
}

impl<B> Drop for Build<B> {
    fn drop(&mut self) {
        if let Some(builder) = self.0.take() {
            drop_late(builder);
        }
    }
}

/// The builder of an optional fetch.
pub(crate) type Optional<K, V, P> = Build<OptionalFetchBuilder<K, V, P>>;

/// The builder of a required fetch.
pub(crate) type Required<K, V, P> = Build<RequiredFetchBuilder<K, V, P>>;

impl<K: Key, V: Value, P: Properties> foyer_raw::OptionalFetchBuilder<Name<K>, Held<V>, Props<P>, Arc<Clock>>
    for Optional<K, V, P>
{
    type Fetch = Guarded<OptionalFetch<FetchTarget<K, V, P>>>;

    fn build(mut self, clock: &mut Arc<Clock>) -> Self::Fetch {
        Guarded::new(self.0.take(), clock)
    }
}

impl<K: Key, V: Value, P: Properties> foyer_raw::RequiredFetchBuilder<Name<K>, Held<V>, Props<P>, Arc<Clock>>
    for Required<K, V, P>
{
    type Fetch = Guarded<RequiredFetch<FetchTarget<K, V, P>>>;

    fn build(mut self, clock: &mut Arc<Clock>) -> Self::Fetch {
        Guarded::new(self.0.take(), clock)
    }
}

/// A user's future, whose panic is a fault, and whose drop doesn't unwind. It is gone as soon as it is ready.
pub(crate) struct Guarded<F> {
    future: Option<Held<F>>,
    // By which its record expires.
    clock: Arc<Clock>,
}

impl<F> Guarded<F> {
    fn new(build: Option<impl FnOnce() -> F>, clock: &mut Arc<Clock>) -> Self {
        let future = build.and_then(caught).map(Held::new);
        Guarded { future, clock: Arc::clone(clock) }
    }
}

impl<T, F> Guarded<F>
where
    F: DerefPoll<Output = Result<T, BoxError>>,
{
    // What it gives is made exact by `make`, which calls the user's code too.
    fn poll_guarded<U>(&mut self, cx: &mut Context<'_>, make: impl FnOnce(T, &Clock) -> U) -> Poll<Result<U, Fault>> {
        let Some(future) = &mut self.future else {
            return Poll::Ready(Err(panicked(None)));
        };
        let clock = &self.clock;
        let poll = || match future.get_mut().poll_pinned(cx) {
            Poll::Pending => Poll::Pending,
            Poll::Ready(result) => Poll::Ready(result.map(|found| make(found, clock)).map_err(fault_of)),
        };
        let ready = caught(poll).unwrap_or_else(|| Poll::Ready(Err(panicked(None))));
        if ready.is_ready() {
            self.future = None;
        }
        ready
    }
}

/// A boxed future, polled in place.
pub(crate) trait DerefPoll {
    type Output;

    fn poll_pinned(&mut self, cx: &mut Context<'_>) -> Poll<Self::Output>;
}

impl<T> DerefPoll for BoxFuture<T> {
    type Output = T;

    fn poll_pinned(&mut self, cx: &mut Context<'_>) -> Poll<T> {
        self.as_mut().poll(cx)
    }
}

impl<K, V, P: Properties> Future for Guarded<OptionalFetch<FetchTarget<K, V, P>>> {
    type Output = Result<Option<Target<K, V, P>>, Fault>;

    fn poll(mut self: Pin<&mut Self>, cx: &mut Context<'_>) -> Poll<Self::Output> {
        self.poll_guarded(cx, |found, clock| found.map(|target| exact(target, clock)))
    }
}

impl<K, V, P: Properties> Future for Guarded<RequiredFetch<FetchTarget<K, V, P>>> {
    type Output = Result<Target<K, V, P>, Fault>;

    fn poll(mut self: Pin<&mut Self>, cx: &mut Context<'_>) -> Poll<Self::Output> {
        self.poll_guarded(cx, exact)
    }
}

// What was fetched, as the proved code inserts it.
fn exact<K, V, P: Properties>(target: FetchTarget<K, V, P>, clock: &Clock) -> Target<K, V, P> {
    match target {
        FetchTarget::Piece(piece) => foyer_core::FetchTarget::Piece(piece.into_inner()),
        FetchTarget::Entry { value, properties } => {
            let expires = clock.expiry(properties.time_to_live());
            let (value, properties) = (Held::new(value), Props::new(properties, expires));
            foyer_core::FetchTarget::Entry { value, properties }
        }
    }
}

// The fault of a fetch or a maker that panicked, whose message is the panic's. A panic that is kept doesn't go on.
pub(crate) fn panicked(thrown: Option<&Box<dyn Any + Send>>) -> Fault {
    let message = match thrown {
        Some(panic) => message(panic.as_ref()),
        None => take_panic().and_then(|panic| {
            let message = message(panic.as_ref());
            discard(Some(panic));
            message
        }),
    };
    Fault::new(0, Text::from(format!("it panicked: {}", message.as_deref().unwrap_or("without a message"))))
}

fn message(panic: &(dyn Any + Send)) -> Option<String> {
    let text = panic.downcast_ref::<&str>().map(|text| (*text).to_owned());
    text.or_else(|| panic.downcast_ref::<String>().cloned())
}
