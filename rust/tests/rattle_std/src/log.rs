//! What warnings go to.

pub use luffapricot::rattle_std::log::*;
