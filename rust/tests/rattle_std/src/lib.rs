//! What tests and programs call of Rattle's std beside what `luffapricot` has of it: arguments, streams, threads, the clock,
//! and macros that are passed a handle.

pub use luffapricot::rattle_std::*;

pub mod log;
pub mod macros;
pub mod test;
pub mod thread;
pub mod vec;

pub use ::std::{any, borrow, cell, char, cmp, convert, default, num, option, slice};

pub mod env {
    use crate::string::String;

    /// Who may read the command line.
    pub trait Env {}
    impl<T> Env for T {}

    /// Returns the words of the command line.
    pub fn args<R>(_rt: &R) -> ::std::io::Result<impl Iterator<Item = String>> {
        Ok(::std::env::args().map(String::from))
    }
}

/// Futures that are polled once.
pub mod futures {
    pub use luffapricot::rattle_std::futures::*;

    pub mod future {
        use crate::alloc::AllocError;
        use ::std::task::{Context, Poll, Waker};

        pub use luffapricot::rattle_std::futures::future::*;

        pub trait FutureExt: Future + Sized {
            /// Returns what the future gives if it is ready when it is polled once.
            fn now_or_never<R>(&mut self, _rt: &R) -> Result<Option<Self::Output>, AllocError> {
                match self.poll(&mut Context::from_waker(Waker::noop())) {
                    Poll::Ready(value) => Ok(Some(value)),
                    Poll::Pending => Ok(None),
                }
            }
        }

        impl<F: Future> FutureExt for F {}
    }
}

pub mod hash {
    pub use ::std::hash::{BuildHasher, BuildHasherDefault, Hash, Hasher};
    pub use luffapricot::rattle_std::hash::FoldHasher;
}

/// Streams. A buffer is passed its allocator.
pub mod io {
    use crate::alloc::Global;

    pub use ::std::io::*;

    /// Who may print, and where.
    pub trait Print {}
    impl<T> Print for T {}
    pub trait Eprint {}
    impl<T> Eprint for T {}

    /// Rust's reader with a buffer.
    pub struct BufReader<R>(::std::io::BufReader<R>);

    impl<R: Read> BufReader<R> {
        pub fn with_capacity(_alloc: Global, n: usize, inner: R) -> Result<Self> {
            Ok(BufReader(::std::io::BufReader::with_capacity(n, inner)))
        }

        pub fn buffer(&self) -> &[u8] {
            self.0.buffer()
        }
    }

    impl<R: Read> Read for BufReader<R> {
        fn read(&mut self, bytes: &mut [u8]) -> Result<usize> {
            self.0.read(bytes)
        }
    }

    impl<R: Read> BufRead for BufReader<R> {
        fn fill_buf(&mut self) -> Result<&[u8]> {
            self.0.fill_buf()
        }

        fn consume(&mut self, n: usize) {
            self.0.consume(n);
        }
    }

    /// Rust's writer with a buffer.
    pub struct BufWriter<W: Write>(::std::io::BufWriter<W>);

    impl<W: Write> BufWriter<W> {
        pub fn with_capacity(_alloc: Global, n: usize, inner: W) -> Result<Self> {
            Ok(BufWriter(::std::io::BufWriter::with_capacity(n, inner)))
        }

        pub fn get_ref(&self) -> &W {
            self.0.get_ref()
        }
    }

    impl<W: Write> Write for BufWriter<W> {
        fn write(&mut self, bytes: &[u8]) -> Result<usize> {
            self.0.write(bytes)
        }

        fn flush(&mut self) -> Result<()> {
            self.0.flush()
        }
    }
}

pub mod process {
    pub use ::std::process::ExitCode;

    /// Who may end the process, as a failed assertion does.
    pub trait Abort {}
    impl<T: ?Sized> Abort for T {}
}

pub mod rc {
    use crate::alloc::{AllocFailed, Global};
    use ::std::ops::Deref;

    /// Rust's `Rc`.
    pub struct Rc<T>(::std::rc::Rc<T>);

    impl<T> Rc<T> {
        pub fn new(_alloc: Global, value: T) -> Result<Self, AllocFailed<T>> {
            Ok(Rc(::std::rc::Rc::new(value)))
        }
    }

    impl<T> Clone for Rc<T> {
        fn clone(&self) -> Self {
            Rc(self.0.clone())
        }
    }

    impl<T> Deref for Rc<T> {
        type Target = T;

        fn deref(&self) -> &T {
            &self.0
        }
    }
}

/// The handles.
pub mod rt {
    pub use luffapricot::rattle_std::rt::*;

    /// Who may read the clock.
    pub trait Clock {}
    impl<T> Clock for T {}

    /// The standard streams.
    pub trait Streams {
        fn stdin(&self) -> ::std::io::Stdin {
            ::std::io::stdin()
        }

        fn stdout(&self) -> ::std::io::Stdout {
            ::std::io::stdout()
        }

        fn stderr(&self) -> ::std::io::Stderr {
            ::std::io::stderr()
        }
    }

    impl Streams for HostRuntime {}
}

pub mod sync {
    pub use ::std::sync::atomic;
    pub use luffapricot::rattle_std::sync::*;
}

pub mod time {
    pub use crate::rt::Clock;
    pub use ::std::time::Duration;

    /// Rust's `Instant`.
    #[derive(Clone, Copy, Debug)]
    pub struct Instant(::std::time::Instant);

    impl Instant {
        pub fn now<R>(_rt: &R) -> ::std::io::Result<Self> {
            Ok(Instant(::std::time::Instant::now()))
        }

        pub fn elapsed<R>(&self, _rt: &R) -> ::std::io::Result<Duration> {
            Ok(self.0.elapsed())
        }
    }
}

/// What a file of Rattle sees without a `use`, where Rust's prelude differs.
pub mod prelude {
    pub use crate::io::{Eprint, Print};
    pub use crate::process::Abort;
    pub use crate::rt::{Alloc, AllocGlobal, Streams};
    pub use crate::test::{ExpectAt, ExpectErrAt};
    pub use crate::vec::{LeavesToVec, MoreText, MoreVec};
    pub use luffapricot::rattle_std::prelude::*;
}
