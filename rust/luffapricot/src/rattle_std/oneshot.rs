//! A channel for one value, which the receiver can wait for as a future.

use super::alloc::{AllocError, Global};
use super::arc::Arc;
use crate::guard::{Held, caught};
use ::std::pin::Pin;
use ::std::sync::{Mutex, MutexGuard, PoisonError};
use ::std::task::{Context, Poll, Waker};

/// The sender went without a value.
#[derive(Clone, Copy, Debug, PartialEq, Eq)]
pub struct Canceled;

struct State<T> {
    value: Option<T>,
    waker: Option<Held<Waker>>,
    is_closed: bool,
}

type Shared<T> = Arc<Mutex<State<T>>>;

// No call of a waker unwinds (see `guard`), so nothing can poison it.
fn lock<T>(shared: &Shared<T>) -> MutexGuard<'_, State<T>> {
    shared.lock().unwrap_or_else(PoisonError::into_inner)
}

/// The end that sends. A drop without a send wakes the receiver.
pub struct Sender<T>(Shared<T>);

/// The end that receives, a future of the value.
pub struct Receiver<T>(Shared<T>);

/// Returns both ends of a new channel.
pub fn channel<T>(alloc: Global) -> Result<(Sender<T>, Receiver<T>), AllocError> {
    let state = State { value: None, waker: None, is_closed: false };
    let shared = Arc::new(alloc, Mutex::new(state))?;
    Ok((Sender(Arc::try_clone(&shared)?), Receiver(shared)))
}

impl<T> Sender<T> {
    /// Sends the value, or returns it if the receiver went.
    pub fn send(self, value: T) -> Result<(), T> {
        let mut state = lock(&self.0);
        if state.is_closed {
            return Err(value);
        }
        state.value = Some(value);
        Ok(())
    }

    /// Whether the receiver went.
    pub fn is_canceled(&self) -> bool {
        lock(&self.0).is_closed
    }
}

impl<T> Drop for Sender<T> {
    fn drop(&mut self) {
        let mut state = lock(&self.0);
        state.is_closed = true;
        let waker = state.waker.take();
        drop(state);
        if let Some(waker) = waker {
            caught(|| waker.get().wake_by_ref());
        }
    }
}

impl<T> Receiver<T> {
    /// Refuses a value from now on. One that was sent can still be had by `try_recv`.
    pub fn close(&mut self) {
        lock(&self.0).is_closed = true;
    }

    /// Returns the value if it was sent.
    pub fn try_recv(&mut self) -> Result<Option<T>, Canceled> {
        let mut state = lock(&self.0);
        match state.value.take() {
            None if state.is_closed => Err(Canceled),
            found => Ok(found),
        }
    }
}

impl<T> Drop for Receiver<T> {
    fn drop(&mut self) {
        self.close();
    }
}

// The value is in the shared state, and never pinned.
impl<T> Unpin for Receiver<T> {}

impl<T> Future for Receiver<T> {
    type Output = Result<T, Canceled>;

    fn poll(self: Pin<&mut Self>, cx: &mut Context<'_>) -> Poll<Self::Output> {
        let mut state = lock(&self.0);
        match state.value.take() {
            Some(value) => Poll::Ready(Ok(value)),
            None if state.is_closed => Poll::Ready(Err(Canceled)),
            None => {
                // One whose clone panics is woken by the panic, which goes on.
                if let Some(waker) = caught(|| cx.waker().clone()) {
                    state.waker = Some(Held::new(waker));
                }
                Poll::Pending
            }
        }
    }
}
