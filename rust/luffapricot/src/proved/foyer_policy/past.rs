//! A value as it was, for contracts only.

// Written by rust/erase/erase.py from crates/foyer_policy/src/past.rt: change that.
#[allow(unused_imports)]
use crate::rattle_std::prelude::*;
use crate::rattle_std::marker::{PhantomData, Send, Sync};

/// A value as it was, which only contracts read and which takes no memory.
///
/// It is std's `Snapshot` that is also `Send` and `Sync`, as a struct that holds one needs to be if threads share it.
pub struct Past<T> {
    of: PhantomData<T>,
}

// It owns nothing.
unsafe impl<T> Send for Past<T> {}

// It lends nothing.
unsafe impl<T> Sync for Past<T> {}

impl<T> Past<T> {
    /// Keeps the value as it is now.
    #[inline]
    pub fn of(value: &T) -> Past<T> {
        let _ = value;
        Past { of: PhantomData }
    }
}
