//! The proved crates, as rust/erase/erase.py writes them.
#![allow(clippy::all, dead_code, private_interfaces, unused_imports, unused_variables)]

pub mod foyer_core;
pub mod foyer_memory;
pub mod foyer_policy;
pub mod foyer_raw;
