//! A clone that can fail.

use super::alloc::AllocError;

/// What can be cloned, unless memory runs out. Every `Clone` is one that doesn't fail.
pub trait TryClone: Sized {
    /// Returns a clone.
    fn try_clone(&self) -> Result<Self, AllocError>;
}

impl<T: Clone> TryClone for T {
    #[inline(always)]
    fn try_clone(&self) -> Result<T, AllocError> {
        Ok(self.clone())
    }
}
