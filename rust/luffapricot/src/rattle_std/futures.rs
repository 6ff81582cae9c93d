//! The kit's futures, whose `poll` takes `&mut self`: in Rust, futures that may move (`Unpin`), as boxed ones.

pub use self::future::Future;
pub use super::oneshot;

pub mod task {
    pub use ::std::task::{Context, Poll};

    pub trait ContextExt {
        /// Returns that the future is pending, and has it polled again.
        fn yield_now<T>(&mut self) -> Poll<T>;
    }

    impl ContextExt for Context<'_> {
        fn yield_now<T>(&mut self) -> Poll<T> {
            self.waker().wake_by_ref();
            Poll::Pending
        }
    }
}

pub mod future {
    use super::task::{Context, Poll};
    use ::std::pin::Pin;

    pub use ::std::future::{Ready, ready};

    /// A future.
    pub trait Future {
        type Output;

        fn poll(&mut self, cx: &mut Context<'_>) -> Poll<Self::Output>;
    }

    impl<F: ::std::future::Future + Unpin> Future for F {
        type Output = F::Output;

        #[inline]
        fn poll(&mut self, cx: &mut Context<'_>) -> Poll<F::Output> {
            ::std::future::Future::poll(Pin::new(self), cx)
        }
    }

    /// A future of the kit's kind as one of Rust's.
    pub struct Std<F>(pub F);

    impl<F> Unpin for Std<F> {}

    impl<F: Future> ::std::future::Future for Std<F> {
        type Output = F::Output;

        #[inline]
        fn poll(self: Pin<&mut Self>, cx: &mut Context<'_>) -> Poll<F::Output> {
            self.get_mut().0.poll(cx)
        }
    }

    /// A task that may be polled.
    pub struct Spawned<F>(F);

    impl<F: Future> Spawned<F> {
        pub fn new(future: F) -> Self {
            Spawned(future)
        }
    }

    pub trait Task {
        fn poll_task(&mut self, cx: &mut Context<'_>) -> Poll<()>;
    }

    impl<F: Future<Output = ()>> Task for Spawned<F> {
        fn poll_task(&mut self, cx: &mut Context<'_>) -> Poll<()> {
            self.0.poll(cx)
        }
    }
}

pub mod channel {
    pub use super::oneshot;
}

pub mod executor {
    use super::future::Future;
    use ::std::sync::Arc;
    use ::std::task::{Context, Poll, Wake, Waker};
    use ::std::thread::{self, Thread};

    struct Unpark(Thread);

    impl Wake for Unpark {
        fn wake(self: Arc<Self>) {
            self.0.unpark();
        }
    }

    /// Polls a future until it is ready, and sleeps in between. One that is ready at once takes no memory.
    pub fn block_on<H, F: Future>(_rt: &H, mut future: F) -> ::std::io::Result<F::Output> {
        if let Poll::Ready(value) = future.poll(&mut Context::from_waker(Waker::noop())) {
            return Ok(value);
        }
        let waker = Waker::from(Arc::new(Unpark(thread::current())));
        let mut cx = Context::from_waker(&waker);
        loop {
            if let Poll::Ready(value) = future.poll(&mut cx) {
                return Ok(value);
            }
            thread::park();
        }
    }
}
