//! The allocator that is passed about, and the errors of allocation.

use ::std::alloc::{Layout, LayoutError, alloc, dealloc};
use ::std::fmt;

pub use super::rt::AllocGlobal;

/// The process's allocator.
#[derive(Clone, Copy, Debug, Default, PartialEq, Eq)]
pub struct Global;

/// Memory ran out.
#[derive(Clone, Copy, Debug, PartialEq, Eq)]
pub struct AllocError;

impl fmt::Display for AllocError {
    fn fmt(&self, f: &mut fmt::Formatter<'_>) -> fmt::Result {
        f.write_str("memory allocation failed")
    }
}

impl ::std::error::Error for AllocError {}

/// Memory ran out for this value.
pub struct AllocFailed<T> {
    pub value: T,
}

impl<T> fmt::Debug for AllocFailed<T> {
    fn fmt(&self, f: &mut fmt::Formatter<'_>) -> fmt::Result {
        f.write_str("AllocFailed")
    }
}

impl<T> fmt::Display for AllocFailed<T> {
    fn fmt(&self, f: &mut fmt::Formatter<'_>) -> fmt::Result {
        AllocError.fmt(f)
    }
}

impl<T> ::std::error::Error for AllocFailed<T> {}

impl<T> From<AllocFailed<T>> for AllocError {
    fn from(_refused: AllocFailed<T>) -> AllocError {
        AllocError
    }
}

impl From<::std::collections::TryReserveError> for AllocError {
    fn from(_refused: ::std::collections::TryReserveError) -> AllocError {
        AllocError
    }
}

/// What gives blocks of memory.
///
/// # Safety
/// A block has at least the size and the alignment that were asked for, and stays until it is given back.
pub unsafe trait Allocator {
    /// Returns a block, which for the size 0 takes no memory.
    fn allocate(&self, size: usize, align: usize) -> Result<*mut u8, AllocError>;

    /// Takes a block back.
    ///
    /// # Safety
    /// `block` came from `allocate` with this size and alignment, and is not used again.
    unsafe fn deallocate(&self, block: *mut u8, size: usize, align: usize);
}

// A large block begins at a cache line, so that each of its parts of 64 bytes is one line.
#[inline(always)]
fn layout_of(size: usize, align: usize) -> Result<Layout, LayoutError> {
    let layout = Layout::from_size_align(size, align)?;
    if size < 1 << 16 { Ok(layout) } else { layout.align_to(64) }
}

// SAFETY: Rust's global allocator keeps these promises.
unsafe impl Allocator for Global {
    #[inline]
    fn allocate(&self, size: usize, align: usize) -> Result<*mut u8, AllocError> {
        let layout = layout_of(size, align).map_err(|_| AllocError)?;
        if size == 0 {
            return Ok(::std::ptr::without_provenance_mut(align));
        }
        // SAFETY: the size is not 0.
        let block = unsafe { alloc(layout) };
        if block.is_null() { Err(AllocError) } else { Ok(block) }
    }

    #[inline]
    unsafe fn deallocate(&self, block: *mut u8, size: usize, align: usize) {
        if size == 0 {
            return;
        }
        if let Ok(layout) = layout_of(size, align) {
            // SAFETY: by this function's contract, `allocate` was called with the same layout.
            unsafe { dealloc(block, layout) }
        }
    }
}
