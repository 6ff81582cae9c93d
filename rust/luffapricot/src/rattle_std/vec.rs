//! Vectors that refuse to grow if memory runs out.

use super::alloc::{AllocError, AllocFailed, Global};
use ::std::fmt;
use ::std::ops::{Deref, DerefMut, Index, IndexMut, RangeBounds};
use ::std::slice::SliceIndex;

/// Rust's `Vec`.
#[derive(Clone, PartialEq, Eq, PartialOrd, Ord, Hash)]
#[repr(transparent)]
pub struct Vec<T>(::std::vec::Vec<T>);

impl<T> Vec<T> {
    #[inline(always)]
    pub const fn new(_alloc: Global) -> Self {
        Vec(::std::vec::Vec::new())
    }

    #[inline(always)]
    pub fn with_capacity(_alloc: Global, n: usize) -> Result<Self, AllocError> {
        let mut all = ::std::vec::Vec::new();
        all.try_reserve_exact(n)?;
        Ok(Vec(all))
    }

    /// Returns `n` clones of a value.
    pub fn from_elem(alloc: Global, value: T, n: usize) -> Result<Self, AllocError>
    where
        T: Clone,
    {
        let mut all = Vec::with_capacity(alloc, n)?;
        all.0.resize(n, value);
        Ok(all)
    }

    /// Appends a value, or returns it if memory runs out.
    #[inline(always)]
    pub fn push(&mut self, value: T) -> Result<(), AllocFailed<T>> {
        if self.0.len() == self.0.capacity() && self.0.try_reserve(1).is_err() {
            return Err(AllocFailed { value });
        }
        self.0.push(value);
        Ok(())
    }

    /// Appends a value, for which room was reserved.
    #[inline(always)]
    pub fn push_reserved(&mut self, value: T) {
        debug_assert!(self.0.len() < self.0.capacity());
        self.0.push(value);
    }

    #[inline(always)]
    pub fn reserve(&mut self, more: usize) -> Result<(), AllocError> {
        Ok(self.0.try_reserve(more)?)
    }

    pub fn resize(&mut self, n: usize, value: T) -> Result<(), AllocError>
    where
        T: Clone,
    {
        self.0.try_reserve(n.saturating_sub(self.0.len()))?;
        self.0.resize(n, value);
        Ok(())
    }

    pub fn extend_from_slice(&mut self, more: &[T]) -> Result<(), AllocError>
    where
        T: Copy,
    {
        self.0.try_reserve(more.len())?;
        self.0.extend_from_slice(more);
        Ok(())
    }

    #[inline(always)]
    pub fn pop(&mut self) -> Option<T> {
        self.0.pop()
    }

    #[inline(always)]
    pub fn swap_remove(&mut self, at: usize) -> T {
        self.0.swap_remove(at)
    }

    #[inline(always)]
    pub fn remove(&mut self, at: usize) -> T {
        self.0.remove(at)
    }

    #[inline(always)]
    pub fn truncate(&mut self, n: usize) {
        self.0.truncate(n);
    }

    #[inline(always)]
    pub fn clear(&mut self) {
        self.0.clear();
    }

    /// Frees the room of a vector that is empty.
    #[inline(always)]
    pub fn destroy_empty(self) {
        debug_assert!(self.0.is_empty());
    }

    pub fn drain<R: RangeBounds<usize>>(&mut self, range: R) -> ::std::vec::Drain<'_, T> {
        self.0.drain(range)
    }

    #[inline(always)]
    pub fn capacity(&self) -> usize {
        self.0.capacity()
    }

    #[inline(always)]
    pub fn allocator(&self) -> &Global {
        &Global
    }

    #[inline(always)]
    pub fn as_slice(&self) -> &[T] {
        &self.0
    }

    #[inline(always)]
    pub fn as_mut_slice(&mut self) -> &mut [T] {
        &mut self.0
    }

    /// Returns Rust's vector.
    pub fn into_std(self) -> ::std::vec::Vec<T> {
        self.0
    }
}

impl<T> Deref for Vec<T> {
    type Target = [T];

    #[inline(always)]
    fn deref(&self) -> &[T] {
        &self.0
    }
}

impl<T> DerefMut for Vec<T> {
    #[inline(always)]
    fn deref_mut(&mut self) -> &mut [T] {
        &mut self.0
    }
}

impl<T, I: SliceIndex<[T]>> Index<I> for Vec<T> {
    type Output = I::Output;

    #[inline(always)]
    fn index(&self, at: I) -> &I::Output {
        &self.0[at]
    }
}

impl<T, I: SliceIndex<[T]>> IndexMut<I> for Vec<T> {
    #[inline(always)]
    fn index_mut(&mut self, at: I) -> &mut I::Output {
        &mut self.0[at]
    }
}

/// The values of a vector. Those of an empty one are cheap.
pub struct IntoIter<T>(Option<::std::vec::IntoIter<T>>);

impl<T> Iterator for IntoIter<T> {
    type Item = T;

    #[inline]
    fn next(&mut self) -> Option<T> {
        self.0.as_mut()?.next()
    }

    #[inline]
    fn size_hint(&self) -> (usize, Option<usize>) {
        self.0.as_ref().map_or((0, Some(0)), Iterator::size_hint)
    }
}

impl<T> IntoIterator for Vec<T> {
    type Item = T;
    type IntoIter = IntoIter<T>;

    #[inline]
    fn into_iter(self) -> IntoIter<T> {
        IntoIter((!self.0.is_empty()).then(|| self.0.into_iter()))
    }
}

impl<'a, T> IntoIterator for &'a Vec<T> {
    type Item = &'a T;
    type IntoIter = ::std::slice::Iter<'a, T>;

    fn into_iter(self) -> Self::IntoIter {
        self.0.iter()
    }
}

impl<T: fmt::Debug> fmt::Debug for Vec<T> {
    fn fmt(&self, f: &mut fmt::Formatter<'_>) -> fmt::Result {
        self.0.fmt(f)
    }
}

/// `collect`, with an allocator.
pub trait Collect: Iterator + Sized {
    fn collect_with(self, alloc: Global) -> Result<Vec<Self::Item>, AllocError> {
        let mut all = Vec::with_capacity(alloc, self.size_hint().0)?;
        for it in self {
            all.push(it)?;
        }
        Ok(all)
    }
}

impl<I: Iterator> Collect for I {}

/// `to_vec`, with an allocator.
pub trait ToVec<T> {
    fn to_vec_with(&self, alloc: Global) -> Result<Vec<T>, AllocError>;
}

impl<T: Clone> ToVec<T> for [T] {
    fn to_vec_with(&self, alloc: Global) -> Result<Vec<T>, AllocError> {
        let mut all = Vec::with_capacity(alloc, self.len())?;
        all.0.extend_from_slice(self);
        Ok(all)
    }
}
