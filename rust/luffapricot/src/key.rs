//! Keys as the proved code sees them, and look-ups by what only borrows a key.
//!
//! The proved code looks a `&Name<K>` up. For a look-up by a `&str` where keys are `String`s there is no `String` to refer
//! to: it gets the address of a `Question` instead, which the current thread remembers while the call lasts. Whatever
//! compares or hashes a name asks first whether it is that question.

use crate::guard::{caught, compared};
use crate::proved::foyer_policy::HashBuilder;
use crate::rattle_std::alloc::AllocError;
use crate::rattle_std::clone::TryClone;
use std::borrow::Borrow;
use std::cell::Cell;
use std::hash::{BuildHasher, Hash, Hasher};
use std::mem::{ManuallyDrop, MaybeUninit};
use std::ptr;

/// What a key can be looked up by: anything that the key borrows as, such as `&str` for `String`.
///
/// `equivalent` has to agree with the key's `==`, and the hashes have to be equal.
pub trait Equivalent<K: ?Sized> {
    /// Whether this names the key.
    fn equivalent(&self, key: &K) -> bool;
}

impl<Q: ?Sized + Eq, K: ?Sized + Borrow<Q>> Equivalent<K> for Q {
    #[inline]
    fn equivalent(&self, key: &K) -> bool {
        *self == *key.borrow()
    }
}

thread_local! {
    // The address of the question that this thread asks, or null.
    static ASKED: Cell<*const ()> = const { Cell::new(ptr::null()) };
}

/// A stored key, or the first field of a question.
#[repr(transparent)]
pub(crate) struct Name<K>(Room<K>);

// Room for a key, of one byte at least: two names never have one address.
#[repr(C)]
union Room<K> {
    key: ManuallyDrop<K>,
    none: u8,
}

// A look-up by a borrowed key. Its name has no key. What depends on `Q` stands last.
#[repr(C)]
struct Question<'a, K, Q: ?Sized> {
    name: ManuallyDrop<Name<K>>,
    head: Head<K>,
    key: &'a Q,
}

// A question whose `Q` isn't known.
#[repr(C)]
struct AnyQuestion<K> {
    name: ManuallyDrop<Name<K>>,
    head: Head<K>,
}

// A question of which only the type of its name is known.
#[repr(C)]
struct AnyName<N> {
    name: MaybeUninit<N>,
    hash: u64,
}

#[repr(C)]
struct Head<K> {
    hash: u64,
    is: unsafe fn(*const (), &K) -> bool,
}

impl<K> Name<K> {
    #[inline(always)]
    pub(crate) fn new(key: K) -> Self {
        Name(Room { key: ManuallyDrop::new(key) })
    }

    /// Returns the key of a stored name.
    #[inline(always)]
    pub(crate) fn get(&self) -> &K {
        // SAFETY: only a question's name has no key. It is lent to look-ups alone, which compare and hash it, and clone or
        // keep none; `==` and `hash_one` know it by its address.
        unsafe { &self.0.key }
    }

    // Whether the question at this address names the stored key.
    #[inline]
    fn is_asked(&self, asked: *const ()) -> bool {
        // SAFETY: the address is that of a `Question` of this `K`, whose first field is what `self` was compared with, and
        // it lives until `ask` resets it. `is` was made for its `Q`.
        unsafe { ((*asked.cast::<AnyQuestion<K>>()).head.is)(asked, self.get()) }
    }
}

impl<K> Drop for Name<K> {
    #[inline(always)]
    fn drop(&mut self) {
        if std::mem::needs_drop::<K>() {
            // SAFETY: a question's name is never dropped, and nothing uses a stored one after its drop.
            caught(|| unsafe { ManuallyDrop::drop(&mut self.0.key) });
        }
    }
}

/// Calls `look` with a name that equals the stored keys that `key` names.
#[inline(always)]
pub(crate) fn ask<K, Q, S, T>(hash_builder: &S, key: &Q, look: impl FnOnce(&Name<K>) -> T) -> T
where
    Q: ?Sized + Hash + Equivalent<K>,
    S: BuildHasher,
{
    // A reset, even if `look` unwinds.
    struct Before(*const ());
    impl Drop for Before {
        #[inline(always)]
        fn drop(&mut self) {
            ASKED.set(self.0);
        }
    }
    let head = Head { hash: hash_builder.hash_one(key), is: is::<K, Q> };
    let question = Question { name: ManuallyDrop::new(Name(Room { none: 0 })), head, key };
    let _before = Before(ASKED.replace(ptr::from_ref(&question).cast()));
    look(&question.name)
}

// SAFETY: the address is that of a `Question<K, Q>`.
unsafe fn is<K, Q: ?Sized + Equivalent<K>>(question: *const (), key: &K) -> bool {
    // SAFETY: by this function's contract.
    let question = unsafe { &*question.cast::<Question<'_, K, Q>>() };
    question.key.equivalent(key)
}

impl<K: Eq> PartialEq for Name<K> {
    #[inline(always)]
    fn eq(&self, other: &Self) -> bool {
        let asked = ASKED.get();
        let is_asked = |name: &Self| ptr::eq(asked, ptr::from_ref(name).cast());
        compared([ptr::from_ref(self).cast(), ptr::from_ref(other).cast()], || {
            match (is_asked(self), is_asked(other)) {
                (false, false) => self.get() == other.get(),
                (true, false) => other.is_asked(asked),
                (false, true) => self.is_asked(asked),
                (true, true) => true,
            }
        })
    }
}

impl<K: Eq> Eq for Name<K> {}

impl<K: Hash> Hash for Name<K> {
    #[inline(always)]
    fn hash<H: Hasher>(&self, state: &mut H) {
        self.get().hash(state);
    }
}

impl<K: Clone> TryClone for Name<K> {
    /// Returns a clone. A panic counts as memory that ran out, until it goes on.
    #[inline(always)]
    fn try_clone(&self) -> Result<Self, AllocError> {
        caught(|| Name::new(self.get().clone())).ok_or(AllocError)
    }
}

/// The user's hash builder, which a question has asked before.
pub(crate) struct Hashing<S>(pub(crate) S);

impl<S: BuildHasher + 'static> HashBuilder for Hashing<S> {
    #[inline(always)]
    fn hash_one<N: Hash>(&self, name: &N) -> u64 {
        let asked = ASKED.get();
        if ptr::eq(asked, ptr::from_ref(name).cast()) {
            // SAFETY: `name` is the first field of the question at this address, and the hash the second.
            return unsafe { (*asked.cast::<AnyName<N>>()).hash };
        }
        // A record whose hash isn't known isn't admitted.
        caught(|| self.0.hash_one(name)).unwrap_or(0)
    }
}
