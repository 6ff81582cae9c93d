//! The bounds of every policy's state and configuration.

// Written by rust/erase/erase.py from crates/foyer_policy/src/config.rt: change that.
#[allow(unused_imports)]
use crate::rattle_std::prelude::*;
use crate::rattle_std::serde::{DeserializeOwned, Serialize};

/// What a policy keeps beside an item. Every fitting type is one.
pub trait State: Default + 'static {}

impl<T: Default + 'static> State for T {}

/// A policy's configuration, which has a default and can be serialized. Every fitting type is one.
pub trait Config: TryClone + Default + Serialize + DeserializeOwned + 'static {}

impl<T: TryClone + Default + Serialize + DeserializeOwned + 'static> Config for T {}
