//! Reads ahead of their use.

// Written by rust/erase/erase.py from crates/foyer_core/src/prefetch.rt: change that.
#[allow(unused_imports)]
use crate::rattle_std::prelude::*;
use crate::rattle_std::hint::spin_loop;

/// Keeps reads whose results nothing else needs: the compiler would drop them if `are_done`, which they make true, decided
/// nothing.
#[inline(always)]
pub fn keep(are_done: bool) {
    if !are_done {
        spin_loop();
    }
}
