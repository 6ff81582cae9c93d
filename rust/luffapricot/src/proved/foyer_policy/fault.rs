//! Errors as faults, so that what fetches a value can use `?`.

// Written by rust/erase/erase.py from crates/foyer_policy/src/fault.rt: change that.
#[allow(unused_imports)]
use crate::rattle_std::prelude::*;
use crate::proved::foyer_policy::error::Fault;
use crate::rattle_std::alloc::Global;
use crate::rattle_std::fmt::Display;

/// Turns the error of a `Result` into a [`Fault`].
///
/// An allocation in a fetch is written `bytes.push(1).or_fault(alloc, 0)?`. A bare `?` can't be: a fault has a
/// `String`, and no `String` is made without an allocator, not even an empty one.
pub trait OrFault<T>: Sized {
    /// Turns an error into a fault with this code. Its message is the error's text, or empty if memory runs out.
    fn or_fault(self, alloc: Global, code: u64) -> Result<T, Fault>;
}

impl<T, E: Display> OrFault<T> for Result<T, E> {
    #[inline]
    fn or_fault(self, alloc: Global, code: u64) -> Result<T, Fault> {
        match self {
            Ok(value) => Ok(value),
            Err(error) => {
                let message = match error.to_string_with(alloc) {
                    Ok(message) => message,
                    Err(_) => String::new(alloc),
                };
                Err(Fault { code, message })
            }
        }
    }
}
