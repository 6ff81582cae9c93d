//! What a conditional insert returns.

// Written by rust/erase/erase.py from crates/foyer_raw/src/replaced.rt: change that.
#[allow(unused_imports)]
use crate::rattle_std::prelude::*;
/// What `replace_if` returns.
#[derive(Debug)]
pub enum Replaced<X, Y = X> {
    /// The key still had what was seen, so the record was inserted: its entry.
    Inserted(X),
    /// The key had something else, so nothing was inserted: an entry of what a `get` finds, if it finds a record.
    Changed(Option<Y>),
}
