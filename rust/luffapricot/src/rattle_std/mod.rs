//! What the proved modules call of Rattle's std, over Rust's: an allocator is passed, a call that allocates returns a
//! `Result`, and a clone can fail.
//!
//! This is not proved. Each function does what its namesake in Rust's std does, but for that. Some are called by the tests
//! and programs of the proved crates alone.
#![allow(dead_code)]

pub mod alloc;
pub mod arc;
pub mod clone;
pub mod collections;
#[cfg(luffa_internals)]
mod for_tests;
pub mod futures;
pub mod hash;
pub mod oneshot;
pub mod rt;
pub mod sync;
pub mod vec;

pub use ::std::{error, fmt, hint, io, mem, ops, result, str};

/// The marker traits and types.
pub mod marker {
    pub use ::std::marker::{PhantomData, Send, Sync};
}

/// Text. `String::from_str` copies it, unless memory runs out.
pub mod string {
    use super::alloc::{AllocError, Global};
    use ::std::fmt;

    /// A string that refuses to grow if memory runs out.
    #[derive(Clone, Default, PartialEq, Eq, PartialOrd, Ord, Hash)]
    pub struct String(::std::string::String);

    impl String {
        /// Returns an empty string, which takes no memory.
        pub fn new(_alloc: Global) -> Self {
            String::default()
        }

        /// Returns a copy.
        pub fn from_str(_alloc: Global, text: &str) -> Result<Self, AllocError> {
            let mut copy = ::std::string::String::new();
            copy.try_reserve_exact(text.len())?;
            copy.push_str(text);
            Ok(String(copy))
        }
    }

    impl fmt::Write for String {
        fn write_str(&mut self, text: &str) -> fmt::Result {
            self.0.try_reserve(text.len()).map_err(|_| fmt::Error)?;
            self.0.push_str(text);
            Ok(())
        }
    }

    /// `to_string`, with an allocator.
    pub trait ToText: fmt::Display {
        fn to_string_with(&self, alloc: Global) -> Result<String, AllocError> {
            let mut text = String::new(alloc);
            fmt::write(&mut text, format_args!("{self}")).map_err(|_| AllocError)?;
            Ok(text)
        }
    }

    impl<T: fmt::Display + ?Sized> ToText for T {}

    impl From<::std::string::String> for String {
        fn from(text: ::std::string::String) -> Self {
            String(text)
        }
    }

    impl ::std::ops::Deref for String {
        type Target = str;

        fn deref(&self) -> &str {
            &self.0
        }
    }

    impl fmt::Debug for String {
        fn fmt(&self, f: &mut fmt::Formatter<'_>) -> fmt::Result {
            fmt::Debug::fmt(&self.0, f)
        }
    }

    impl fmt::Display for String {
        fn fmt(&self, f: &mut fmt::Formatter<'_>) -> fmt::Result {
            f.write_str(&self.0)
        }
    }
}

/// A value as it was, which only contracts read.
pub mod snapshot {
    use ::std::marker::PhantomData;

    /// Nothing.
    pub struct Snapshot<T>(PhantomData<fn() -> T>);

    impl<T> Snapshot<T> {
        /// Keeps nothing.
        #[inline(always)]
        pub fn of(_value: &T) -> Self {
            Snapshot(PhantomData)
        }
    }
}

/// Vectors of 32 lanes, of which the compiler makes what the processor has.
pub mod simd {
    /// The names as Rust's portable vectors have them.
    pub mod prelude {
        #[allow(non_camel_case_types)]
        #[derive(Clone, Copy)]
        pub struct u16x32([u16; 32]);

        impl u16x32 {
            #[inline(always)]
            pub fn from_array(lanes: [u16; 32]) -> Self {
                u16x32(lanes)
            }

            #[inline(always)]
            pub fn splat(lane: u16) -> Self {
                u16x32([lane; 32])
            }

            #[inline(always)]
            pub fn copy_to_slice(self, slice: &mut [u16]) {
                slice[..32].copy_from_slice(&self.0);
            }
        }

        impl ::std::ops::Shr for u16x32 {
            type Output = Self;

            #[inline(always)]
            fn shr(mut self, by: Self) -> Self {
                for (lane, by) in self.0.iter_mut().zip(by.0) {
                    *lane >>= by;
                }
                self
            }
        }
    }
}

/// The kit's crate of that name.
pub mod std_alloc {
    pub mod room {
        /// Whether an array of `n` values is small enough to allocate.
        pub const fn may_hold<T>(n: usize) -> bool {
            let size = size_of::<T>();
            size == 0 || n <= isize::MAX as usize / size
        }
    }
}

/// Every configuration can be written and read, which is left to the types that users see.
pub mod serde {
    pub trait Serialize {}
    impl<T> Serialize for T {}
    pub trait DeserializeOwned {}
    impl<T> DeserializeOwned for T {}
    pub trait Deserialize {}
    impl<T> Deserialize for T {}
}

/// What warnings go to.
pub mod log {
    pub(crate) use super::macros::warn_in as warn;

    pub trait Log {
        fn warn(&self, text: ::std::fmt::Arguments<'_>);
    }

    /// Drops them.
    pub struct NopLogger;

    impl Log for NopLogger {
        fn warn(&self, _text: ::std::fmt::Arguments<'_>) {}
    }
}

pub mod random {
    /// What can give random numbers, of which the cache takes none.
    pub trait RandomSource {}
    impl RandomSource for super::rt::HostRuntime {}
}

/// The macros that are passed an allocator or a log, and `unreachable`.
pub mod macros {
    macro_rules! warn_in {
        ($log:expr; $($text:tt)*) => {
            $crate::rattle_std::log::Log::warn($log, ::std::format_args!($($text)*))
        };
    }
    pub(crate) use warn_in;

    macro_rules! vec_in {
        ($value:expr; $n:expr) => {
            $crate::rattle_std::vec::Vec::from_elem($crate::rattle_std::alloc::Global, $value, $n)
        };
    }
    pub(crate) use vec_in as vec;

    macro_rules! never {
        () => {
            $crate::rattle_std::unreached()
        };
    }
    pub(crate) use never as unreachable;
}

/// Ends a call at a place that the proof says is never reached. Keys that break the laws of `Eq`, `Hash` or `Clone` could
/// reach it.
#[cold]
#[inline(never)]
#[track_caller]
pub fn unreached() -> ! {
    panic!("the proof says that this is never reached: are the key's Eq, Hash and Clone lawful?")
}

/// What a file of Rattle sees without a `use`, where Rust's prelude differs.
#[allow(unused_imports)]
pub mod prelude {
    pub use super::alloc::Global;
    pub use super::clone::TryClone;
    pub use super::futures::task::ContextExt;
    pub use super::rt::HostRuntime;
    pub use super::string::{String, ToText};
    pub use super::vec::{Collect, ToVec, Vec};
}
