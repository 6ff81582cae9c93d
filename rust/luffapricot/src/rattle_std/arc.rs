//! A counted reference whose making and cloning can fail, which Rust's `Arc` can't on a stable compiler.

use super::alloc::{AllocError, AllocFailed, Allocator, Global};
use ::std::fmt;
use ::std::marker::PhantomData;
use ::std::mem::ManuallyDrop;
use ::std::ops::Deref;
use ::std::ptr::NonNull;
use ::std::sync::atomic::{AtomicUsize, Ordering, fence};

// What the references share: their count, and the value.
struct Counted<T> {
    count: AtomicUsize,
    value: T,
}

// A count above it is refused. As many clones again would have to begin at once for it to overflow.
const MOST: usize = isize::MAX as usize;

/// A counted reference to a value, which is dropped with the last one.
pub struct Arc<T, A = Global> {
    to: NonNull<Counted<T>>,
    owns: PhantomData<(Counted<T>, A)>,
}

// SAFETY: as Rust's `Arc`: it gives out `&T` in every thread, and its last owner drops the value in any thread.
unsafe impl<T: Send + Sync, A> Send for Arc<T, A> {}
// SAFETY: as above, since a `&Arc` can be cloned.
unsafe impl<T: Send + Sync, A> Sync for Arc<T, A> {}

impl<T> Arc<T> {
    /// Returns the first reference to a value, or the value if memory runs out.
    #[inline]
    pub fn new(_alloc: Global, value: T) -> Result<Self, AllocFailed<T>> {
        let made = Global.allocate(size_of::<Counted<T>>(), align_of::<Counted<T>>());
        let Some(to) = made.ok().and_then(|block| NonNull::new(block.cast::<Counted<T>>())) else {
            return Err(AllocFailed { value });
        };
        let count = AtomicUsize::new(1);
        // SAFETY: the block has the size and alignment of what is written, and nothing else knows it.
        unsafe { to.write(Counted { count, value }) };
        Ok(Arc { to, owns: PhantomData })
    }

    /// Returns another reference to the same value, unless the count is full.
    #[inline]
    pub fn try_clone(this: &Self) -> Result<Self, AllocError> {
        // Relaxed as in Rust's `Arc`: whoever has a reference has seen the value.
        if this.counted().count.fetch_add(1, Ordering::Relaxed) > MOST {
            this.counted().count.fetch_sub(1, Ordering::Relaxed);
            return Err(AllocError);
        }
        Ok(Arc { to: this.to, owns: PhantomData })
    }

    /// Whether both refer to one value, and not to two equal ones.
    pub fn ptr_eq(a: &Self, b: &Self) -> bool {
        a.to == b.to
    }

    /// Returns how many references there are, while others may come and go.
    pub fn strong_count(this: &Self) -> usize {
        this.counted().count.load(Ordering::Relaxed)
    }

    /// Returns the value if this was the last reference.
    pub fn into_inner(this: Self) -> Option<T> {
        let this = ManuallyDrop::new(this);
        if !this.is_last() {
            return None;
        }
        // SAFETY: the last reference owns the block, and `this` isn't dropped.
        unsafe {
            let value = ::std::ptr::read(&this.to.as_ref().value);
            this.free();
            Some(value)
        }
    }
}

impl<T, A> Arc<T, A> {
    #[inline(always)]
    fn counted(&self) -> &Counted<T> {
        // SAFETY: the block lives while a reference does.
        unsafe { self.to.as_ref() }
    }

    // Counts this reference off. If it was the last one, what all others did to the value has happened before.
    #[inline(always)]
    fn is_last(&self) -> bool {
        if self.counted().count.fetch_sub(1, Ordering::Release) != 1 {
            return false;
        }
        fence(Ordering::Acquire);
        true
    }

    // SAFETY: the caller was the last owner, and has dropped or moved the value.
    #[inline(always)]
    unsafe fn free(&self) {
        // SAFETY: `new` allocated it with this size and alignment.
        unsafe { Global.deallocate(self.to.as_ptr().cast(), size_of::<Counted<T>>(), align_of::<Counted<T>>()) }
    }

    // Drops the value and frees the block, even if the drop panics.
    #[inline(never)]
    fn end(&mut self) {
        struct Block<T, A>(ManuallyDrop<Arc<T, A>>);
        impl<T, A> Drop for Block<T, A> {
            fn drop(&mut self) {
                // SAFETY: only `end` makes one, for the last owner, and drops the value before.
                unsafe { self.0.free() }
            }
        }
        let _block = Block(ManuallyDrop::new(Arc::<T, A> { to: self.to, owns: PhantomData }));
        // A cache with a poisoned lock panics here, also while its entry's drop unwinds because of that.
        // SAFETY: the last owner drops it once.
        let drop_value = || unsafe { ::std::ptr::drop_in_place(&raw mut (*self.to.as_ptr()).value) };
        if ::std::thread::panicking() {
            crate::guard::caught(drop_value);
        } else {
            drop_value();
        }
    }
}

impl<T, A> Drop for Arc<T, A> {
    #[inline]
    fn drop(&mut self) {
        if self.is_last() {
            self.end();
        }
    }
}

/// A clone that panics if the count is full, for derived clones. `try_clone` fails instead.
impl<T> Clone for Arc<T> {
    fn clone(&self) -> Self {
        Arc::try_clone(self).expect("a reference count is full")
    }
}

impl<T, A> Deref for Arc<T, A> {
    type Target = T;

    #[inline(always)]
    fn deref(&self) -> &T {
        &self.counted().value
    }
}

impl<T: fmt::Debug, A> fmt::Debug for Arc<T, A> {
    fn fmt(&self, f: &mut fmt::Formatter<'_>) -> fmt::Result {
        (**self).fmt(f)
    }
}

impl<T: PartialEq, A> PartialEq for Arc<T, A> {
    fn eq(&self, other: &Self) -> bool {
        **self == **other
    }
}

impl<T: Eq, A> Eq for Arc<T, A> {}
