//! Why a call failed.

use crate::proved::foyer_policy::{self, Fault, Reason};
use crate::rattle_std::clone::TryClone;
use crate::rattle_std::string::String as Text;
use std::fmt;

pub use crate::proved::foyer_policy::ErrorKind;

/// The error of a user's fetch or maker, whatever its type.
pub type BoxError = Box<dyn std::error::Error + Send + Sync>;

/// Why a call failed: a configuration that isn't accepted, memory that ran out, a limit, or a fetch that failed.
pub struct Error(foyer_policy::Error);

/// What a call returns that can fail.
pub type Result<T> = std::result::Result<T, Error>;

impl Error {
    /// Creates the error of a fetch, with a code and a message of its caller's. All who wait for the fetch get both.
    pub fn fetch(code: u64, message: impl Into<String>) -> Self {
        let fault = Fault::new(code, Text::from(message.into()));
        match crate::rattle_std::sync::Arc::new(crate::rattle_std::alloc::Global, fault) {
            Ok(fault) => Error(foyer_policy::Error::new(Reason::Fetch(fault))),
            Err(_) => Error(foyer_policy::Error::new(Reason::NoMemory)),
        }
    }

    /// Returns the number by which the documents call this error: 7 for F7, out of memory.
    pub fn number(&self) -> u8 {
        self.0.number()
    }

    /// Returns what kind of error it is.
    pub fn kind(&self) -> ErrorKind {
        self.0.kind()
    }

    /// Returns the code and the message of a fetch that failed. An error of another type than this one has the code 0.
    pub fn fault(&self) -> Option<(u64, &str)> {
        match self.0.reason() {
            Reason::Fetch(fault) => Some((fault.code, &fault.message)),
            _ => None,
        }
    }

    pub(crate) fn no_memory() -> Self {
        Error(foyer_policy::Error::new(Reason::NoMemory))
    }

    pub(crate) fn no_value() -> Self {
        Error(foyer_policy::Error::new(Reason::NoValue))
    }
}

/// Turns what a fetch or a maker failed with into what those who wait for it get.
pub(crate) fn fault_of(error: BoxError) -> Fault {
    if let Some((code, message)) = error.downcast_ref::<Error>().and_then(Error::fault) {
        return Fault::new(code, Text::from(message.to_owned()));
    }
    Fault::new(0, Text::from(error.to_string()))
}

impl From<foyer_policy::Error> for Error {
    fn from(error: foyer_policy::Error) -> Self {
        Error(error)
    }
}

impl Clone for Error {
    /// Returns the same error, or if that takes more memory than there is, F7.
    fn clone(&self) -> Self {
        self.0.try_clone().map_or_else(|_| Error::no_memory(), Error)
    }
}

impl fmt::Debug for Error {
    fn fmt(&self, f: &mut fmt::Formatter<'_>) -> fmt::Result {
        write!(f, "F{} ({self})", self.number())
    }
}

impl fmt::Display for Error {
    fn fmt(&self, f: &mut fmt::Formatter<'_>) -> fmt::Result {
        match self.fault() {
            Some((_, message)) => write!(f, "the fetch failed: {message}"),
            None => fmt::Display::fmt(&self.0, f),
        }
    }
}

impl std::error::Error for Error {}
