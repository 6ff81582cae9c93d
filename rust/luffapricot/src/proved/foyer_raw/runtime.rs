//! What calls that block ask of the runtime.

// Written by rust/erase/erase.py from crates/foyer_raw/src/runtime.rt: change that.
#[allow(unused_imports)]
use crate::rattle_std::prelude::*;
use crate::rattle_std::alloc::AllocGlobal;
use crate::rattle_std::random::RandomSource;
use crate::rattle_std::sync::Wait;

/// A runtime on which a thread may block until a value is there. `HostRuntime` is one.
pub trait Runtime: Wait + RandomSource + AllocGlobal {}

impl<H: Wait + RandomSource + AllocGlobal> Runtime for H {}
