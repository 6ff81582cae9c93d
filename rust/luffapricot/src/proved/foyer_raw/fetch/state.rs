//! The states of a fetch task, and how events change them.

// Written by rust/erase/erase.py from crates/foyer_raw/src/fetch/state.rt: change that.
#[allow(unused_imports)]
use crate::rattle_std::prelude::*;
use crate::rattle_std::fmt::{self, Debug};

/// What a fetch task is doing.
#[derive(Clone, Copy, PartialEq, Eq)]
pub enum RawFetchState {
    /// It wasn't polled yet.
    Init,
    /// It polls the optional fetch.
    FetchOptional,
    /// It polls the required fetch.
    FetchRequired,
    /// It gives a result to all that wait.
    Notify,
    /// It has ended.
    Ready,
}

/// What happens to a fetch task.
#[derive(Clone, Copy, Debug, PartialEq, Eq)]
pub enum TaskEvent {
    /// It is polled for the first time; the flag says whether there is an optional builder.
    Start(bool),
    /// An optional fetch gave a value, or a required one a value or a fault.
    Given,
    /// An optional fetch gave no value, or a fault.
    Missing,
    /// It took a builder that a waiting caller had brought.
    Taken,
    /// All that wait got their result.
    Told,
    /// The fetch isn't open any more.
    Closed,
}

impl RawFetchState {
    /// Returns the state after an event. `required` says whether the first caller's own required builder is still there.
    #[inline]
    pub fn next(self, required: bool, event: TaskEvent) -> Self {
        use RawFetchState::{FetchOptional, FetchRequired, Init, Notify, Ready};
        match (self, event) {
            (_, TaskEvent::Closed) | (Notify, TaskEvent::Told) => Ready,
            (Init, TaskEvent::Start(true)) => FetchOptional,
            (Init, TaskEvent::Start(false)) | (FetchOptional, TaskEvent::Missing) => {
                if required {
                    FetchRequired
                } else {
                    Notify
                }
            }
            (FetchOptional | FetchRequired, TaskEvent::Given) => Notify,
            (Notify, TaskEvent::Taken) => FetchRequired,
            (state, _) => state,
        }
    }
}

impl Debug for RawFetchState {
    #[inline]
    fn fmt(&self, f: &mut fmt::Formatter<'_>) -> fmt::Result {
        f.write_str(match self {
            RawFetchState::Init => "Init",
            RawFetchState::FetchOptional => "Optional",
            RawFetchState::FetchRequired => "Required",
            RawFetchState::Notify => "Notify",
            RawFetchState::Ready => "Ready",
        })
    }
}
