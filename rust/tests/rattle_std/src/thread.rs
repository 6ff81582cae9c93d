//! Threads whose results come back.

use crate::alloc::{AllocError, Global};
use crate::vec::Vec;
use ::std::thread::scope;
use ::std::time::Duration;

pub use ::std::thread::yield_now;

/// Who may start threads.
pub trait Threads {}
impl<T> Threads for T {}

pub fn sleep<R>(_rt: &R, time: Duration) {
    ::std::thread::sleep(time);
}

/// Runs both, the second in another thread.
pub fn join<R, A: Send, B: Send>(_rt: &R, a: impl FnOnce() -> A + Send, b: impl FnOnce() -> B + Send) -> (A, B) {
    scope(|threads| {
        let other = threads.spawn(b);
        (a(), other.join().expect("a thread panicked"))
    })
}

/// Returns what a function returns for each index, each in a thread of its own.
pub fn map_indices<R, T: Send, F: Fn(usize) -> T + Sync>(_rt: &R, alloc: Global, n: usize, f: &F) -> Result<Vec<T>, AllocError> {
    let mut all = Vec::with_capacity(alloc, n)?;
    scope(|threads| {
        let started: ::std::vec::Vec<_> = (0..n).map(|i| threads.spawn(move || f(i))).collect();
        for it in started {
            all.push_reserved(it.join().expect("a thread panicked"));
        }
    });
    Ok(all)
}
