//! What keeps a panic of a user's code out of the proved code, whose proofs know no unwinding.
//!
//! Keys, values, weighers, filters, listeners, predicates and pipes are called through `caught`: a panic ends there, the
//! call goes on with a harmless result (keys differ, a record isn't admitted), and once no lock is held `resumed` lets the
//! panic go on in its thread. So no lock is poisoned, and the cache stays whole.

use crate::rattle_std::alloc::AllocError;
use crate::rattle_std::clone::TryClone;
use std::any::Any;
use std::cell::{Cell, RefCell};
use std::mem::ManuallyDrop;
use std::ops::{Deref, DerefMut};
use std::panic::{AssertUnwindSafe, catch_unwind, resume_unwind};
use std::thread;

type Thrown = Box<dyn Any + Send>;

// What is only dropped.
trait Anything {}
impl<T> Anything for T {}

thread_local! {
    // Whether `resumed` has something to do. It has no destructor, so it costs one load.
    static IS_PENDING: Cell<bool> = const { Cell::new(false) };
    static PANIC: Cell<Option<Thrown>> = const { Cell::new(None) };
    static LATE: RefCell<Vec<Box<dyn Anything>>> = const { RefCell::new(Vec::new()) };
    static EQUAL: RefCell<Vec<[*const (); 2]>> = const { RefCell::new(Vec::new()) };
}

/// Calls a user's code, and keeps its panic for `resumed`.
#[inline(always)]
pub(crate) fn caught<T>(call: impl FnOnce() -> T) -> Option<T> {
    catch_unwind(AssertUnwindSafe(call)).map_err(keep).ok()
}

// Ends a panic, which has been printed. A payload that isn't a text is leaked, since its drop could panic again.
pub(crate) fn discard(panic: Option<Thrown>) {
    match panic {
        Some(text) if text.is::<&str>() || text.is::<String>() => drop(text),
        other => std::mem::forget(other),
    }
}

// Of several panics the first one goes on. A thread whose locals are gone keeps none.
#[cold]
#[inline(never)]
fn keep(panic: Thrown) {
    IS_PENDING.set(true);
    let _ = PANIC.try_with(|kept| match kept.take() {
        None => kept.set(Some(panic)),
        first => {
            kept.set(first);
            discard(Some(panic));
        }
    });
}

/// Drops a value once no lock is held: its drop may call the cache.
#[cold]
#[inline(never)]
pub(crate) fn drop_late<T: 'static>(value: T) {
    IS_PENDING.set(true);
    let late: Box<dyn Anything> = Box::new(value);
    let _ = LATE.try_with(|all| all.borrow_mut().push(late));
}

/// Makes a call of the proved code, and lets a panic of the user's code that it called go on.
#[inline(always)]
pub(crate) fn resumed<T>(call: impl FnOnce() -> T) -> T {
    // If `call` itself unwinds, that panic is the one that goes on.
    struct Unwinding;
    impl Drop for Unwinding {
        fn drop(&mut self) {
            discard(take_panic());
        }
    }
    let unwinding = Unwinding;
    let result = call();
    std::mem::forget(unwinding);
    // `result` moves in the cold path alone.
    if IS_PENDING.get() {
        if let Some(panic) = going_on() {
            go_on(result, panic);
        }
    }
    result
}

/// Compares two names by a user's code. If that panics they count as equal until the panic goes on: a fetch that its own
/// task no longer found would never end.
#[inline(always)]
pub(crate) fn compared(names: [*const (); 2], compare: impl FnOnce() -> bool) -> bool {
    if IS_PENDING.get() && count_as_equal(names) {
        return true;
    }
    caught(compare).unwrap_or_else(|| equated(names))
}

#[cold]
#[inline(never)]
fn equated(names: [*const (); 2]) -> bool {
    let _ = EQUAL.try_with(|all| all.borrow_mut().push(names));
    true
}

#[cold]
#[inline(never)]
fn count_as_equal(names: [*const (); 2]) -> bool {
    EQUAL.try_with(|all| all.borrow().contains(&names)).unwrap_or(false)
}

/// Whether a panic is kept.
#[inline(always)]
pub(crate) fn is_pending() -> bool {
    IS_PENDING.get() && has_panic()
}

#[cold]
#[inline(never)]
fn has_panic() -> bool {
    let look = |kept: &Cell<Option<Thrown>>| {
        let panic = kept.take();
        let is_kept = panic.is_some();
        kept.set(panic);
        is_kept
    };
    PANIC.try_with(look).unwrap_or(false)
}

/// Takes the panic that `caught` kept, so that it doesn't go on.
pub(crate) fn take_panic() -> Option<Thrown> {
    drop_all_late();
    IS_PENDING.set(false);
    let _ = EQUAL.try_with(|all| all.borrow_mut().clear());
    PANIC.try_with(Cell::take).ok().flatten()
}

fn drop_all_late() {
    while let Ok(Some(late)) = LATE.try_with(|all| all.borrow_mut().pop()) {
        caught(|| drop(late));
    }
}

// The panic that goes on, if one does.
#[cold]
#[inline(never)]
fn going_on() -> Option<Thrown> {
    let panic = take_panic()?;
    if thread::panicking() {
        discard(Some(panic));
        return None;
    }
    Some(panic)
}

// The result is dropped before the panic goes on, since its drop may call a user's code too.
#[cold]
#[inline(never)]
fn go_on<T>(result: T, panic: Thrown) -> ! {
    caught(|| drop(result));
    discard(take_panic());
    resume_unwind(panic)
}

/// A part of the proved code. A panic of a user's code that its drop calls goes on after it.
pub(crate) struct Resumed<T>(ManuallyDrop<T>);

impl<T> Resumed<T> {
    pub(crate) fn new(part: T) -> Self {
        Resumed(ManuallyDrop::new(part))
    }

    pub(crate) fn into_inner(self) -> T {
        let mut this = ManuallyDrop::new(self);
        // SAFETY: `this` isn't dropped or used again.
        unsafe { ManuallyDrop::take(&mut this.0) }
    }
}

impl<T> Drop for Resumed<T> {
    fn drop(&mut self) {
        // SAFETY: nothing uses it after its drop.
        dropped(|| unsafe { ManuallyDrop::drop(&mut self.0) });
    }
}

/// Drops a part of the proved code, as `resumed` calls. Nothing unwinds out of a drop while the thread unwinds, since that
/// would end the process.
#[inline(always)]
pub(crate) fn dropped(call: impl FnOnce()) {
    if thread::panicking() { dropped_unwinding(call) } else { resumed(call) }
}

#[cold]
#[inline(never)]
fn dropped_unwinding(call: impl FnOnce()) {
    caught(call);
    discard(take_panic());
}

impl<T> Deref for Resumed<T> {
    type Target = T;

    #[inline(always)]
    fn deref(&self) -> &T {
        &self.0
    }
}

impl<T> DerefMut for Resumed<T> {
    #[inline(always)]
    fn deref_mut(&mut self) -> &mut T {
        &mut self.0
    }
}

/// A value of a user's type, whose drop doesn't unwind.
#[repr(transparent)]
pub(crate) struct Held<T>(ManuallyDrop<T>);

impl<T> Held<T> {
    #[inline(always)]
    pub(crate) fn new(value: T) -> Self {
        Held(ManuallyDrop::new(value))
    }

    #[inline(always)]
    pub(crate) fn get(&self) -> &T {
        &self.0
    }
}

impl<T> Held<T> {
    #[inline(always)]
    pub(crate) fn get_mut(&mut self) -> &mut T {
        &mut self.0
    }
}

impl<T: Default> Default for Held<T> {
    fn default() -> Self {
        Held::new(T::default())
    }
}

impl<T> Drop for Held<T> {
    #[inline(always)]
    fn drop(&mut self) {
        if std::mem::needs_drop::<T>() {
            // SAFETY: nothing uses it after its drop.
            caught(|| unsafe { ManuallyDrop::drop(&mut self.0) });
        }
    }
}

impl<T: Clone> TryClone for Held<T> {
    /// Returns a clone. A panic counts as memory that ran out, until it goes on.
    fn try_clone(&self) -> Result<Self, AllocError> {
        caught(|| Held::new(self.get().clone())).ok_or(AllocError)
    }
}
