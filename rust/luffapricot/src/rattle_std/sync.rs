//! Locks, and what waits for them.

pub use super::arc::Arc;
pub use ::std::sync::MutexGuard;

/// What may wait for a lock. In Rust everything may.
pub trait Wait {}
impl Wait for super::rt::HostRuntime {}
impl<T: Wait> Wait for &T {}

/// Rust's `Mutex`.
///
/// No call of a user's code unwinds while it is locked (see `guard`), so only a fault of ours can poison it. Then the
/// calls that need it panic, since nobody knows what state it guards.
#[derive(Debug, Default)]
pub struct Mutex<T>(::std::sync::Mutex<T>);

#[cold]
#[inline(never)]
fn poisoned() -> ! {
    panic!("a cache's lock is poisoned: a call under it panicked before")
}

impl<T> Mutex<T> {
    /// Returns an unlocked one.
    pub const fn new(value: T) -> Self {
        Mutex(::std::sync::Mutex::new(value))
    }

    /// Locks it, and waits for that if another thread has it.
    #[inline(always)]
    pub fn lock<H>(&self, _rt: &H) -> MutexGuard<'_, T> {
        self.0.lock().unwrap_or_else(|_| poisoned())
    }

    /// Locks it if no thread has it.
    #[inline(always)]
    pub fn try_lock(&self) -> Option<MutexGuard<'_, T>> {
        match self.0.try_lock() {
            Ok(guard) => Some(guard),
            Err(::std::sync::TryLockError::WouldBlock) => None,
            Err(::std::sync::TryLockError::Poisoned(_)) => poisoned(),
        }
    }

    /// Returns what it guards.
    pub fn into_inner(self) -> T {
        self.0.into_inner().unwrap_or_else(|_| poisoned())
    }
}
