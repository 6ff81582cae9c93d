//! One block of nodes, each with its links and room for a value.

// Written by rust/erase/erase.py from crates/foyer_policy/src/lists/block.rt: change that.
#[allow(unused_imports)]
use crate::rattle_std::prelude::*;
use crate::rattle_std::alloc::{AllocError, Allocator};
use crate::rattle_std::marker::{PhantomData, Send, Sync};
use crate::rattle_std::mem::{align_of, size_of};

/// One node: its links, and room for a value.
pub(crate) struct Node<L, T> {
    links: L,
    value: T,
}

/// Where a block of nodes begins. It owns nothing.
pub(crate) struct Base<L, T> {
    ptr: *mut Node<L, T>,
}

impl<L, T> Clone for Base<L, T> {
    #[inline(always)]
    fn clone(&self) -> Self {
        *self
    }
}

impl<L, T> Copy for Base<L, T> {}

unsafe impl<L, T> Send for Base<L, T> {}

unsafe impl<L, T> Sync for Base<L, T> {}

/// The owner of the nodes. It takes no space: its holder has the base and the length too.
pub(crate) struct Nodes<L, T> {
    mark: PhantomData<*const (L, T)>,
}

unsafe impl<L: Send, T: Send> Send for Nodes<L, T> {}

unsafe impl<L: Sync, T: Sync> Sync for Nodes<L, T> {}

/// The right to give the block of `len` nodes at `at` back to `alloc`. It takes no space.
pub(crate) struct Deed<L, T, A: Allocator> {
    mark: PhantomData<*const (L, T, A)>,
}

unsafe impl<L, T, A: Allocator + Send> Send for Deed<L, T, A> {}

// A `&` to it holds nothing.
unsafe impl<L, T, A: Allocator> Sync for Deed<L, T, A> {}

/// Allocates `len` nodes with neither links nor values. Takes memory only if `len` isn't 0.
#[inline]
pub(crate) fn allocate<L, T, A: Allocator>(
    alloc: &A,
    len: usize,
) -> Result<(Base<L, T>, Nodes<L, T>, Deed<L, T, A>), AllocError> {
    if len == 0 {
        let none = ();
        let base = Base { ptr: &raw const none as *mut Node<L, T> };
        return Ok((base, Nodes { mark: PhantomData }, Deed { mark: PhantomData }));
    }
    match alloc.allocate(len * size_of::<Node<L, T>>(), align_of::<Node<L, T>>()) {
        Ok(block) => {
            let base = Base { ptr: block as *mut Node<L, T> };
            Ok((base, Nodes { mark: PhantomData }, Deed { mark: PhantomData }))
        }
        Err(error) => Err(error),
    }
}

/// Frees a block in which no node has a value.
#[inline]
pub(crate) fn deallocate<L, T, A: Allocator>(
    alloc: &A,
    base: Base<L, T>,
    len: usize,
    nodes: Nodes<L, T>,
    deed: Deed<L, T, A>,
) {
    let Nodes { mark: _ } = nodes;
    let Deed { mark: _ } = deed;
    if len != 0 {
        unsafe {
            alloc.deallocate(base.ptr as *mut u8, len * size_of::<Node<L, T>>(), align_of::<Node<L, T>>());
        }
    }
}

impl<L, T> Nodes<L, T> {
    /// Returns the links of a node.
    #[inline(always)]
    pub(crate) fn links(&self, base: Base<L, T>, index: usize) -> &L {
        unsafe { &(*base.ptr.add(index)).links }
    }

    /// Writes the links of a node, whether or not it had some.
    #[inline(always)]
    pub(crate) fn set_links(&mut self, base: Base<L, T>, index: usize, links: L) {
        unsafe { (&raw mut (*base.ptr.add(index)).links).write(links) }
    }

    /// Puts a value into a node that has none.
    #[inline(always)]
    pub(crate) fn write(&mut self, base: Base<L, T>, index: usize, value: T) {
        unsafe { (&raw mut (*base.ptr.add(index)).value).write(value) }
    }

    /// Moves the value out of a node.
    #[inline(always)]
    pub(crate) fn read(&mut self, base: Base<L, T>, index: usize) -> T {
        unsafe { (&raw const (*base.ptr.add(index)).value).read() }
    }

    /// Returns the value of a node.
    #[inline(always)]
    pub(crate) fn get(&self, base: Base<L, T>, index: usize) -> &T {
        unsafe { &(*base.ptr.add(index)).value }
    }

    /// Returns the value of a node for writing.
    #[inline(always)]
    pub(crate) fn get_mut(&mut self, base: Base<L, T>, index: usize) -> &mut T {
        unsafe { &mut (*base.ptr.add(index)).value }
    }
}
