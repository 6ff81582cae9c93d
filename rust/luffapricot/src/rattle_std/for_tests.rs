//! What the crates of tests need beside that, and can't say of types that aren't theirs.

use super::alloc::{AllocError, AllocFailed};
use super::log::Log;
use super::rt::{Alloc, HostRuntime};
use super::vec::Vec;
use ::std::fmt::Arguments;
use ::std::io::{Error, ErrorKind, Result, Write};

impl<T: Alloc> Alloc for &T {
    type A = T::A;

    fn alloc(&self) -> T::A {
        (**self).alloc()
    }
}

impl Log for HostRuntime {
    fn warn(&self, text: Arguments<'_>) {
        eprintln!("{text}");
    }
}

impl<L: Log> Log for Option<L> {
    fn warn(&self, text: Arguments<'_>) {
        if let Some(log) = self {
            log.warn(text);
        }
    }
}

impl From<AllocError> for Error {
    fn from(_refused: AllocError) -> Error {
        ErrorKind::OutOfMemory.into()
    }
}

impl<T> From<AllocFailed<T>> for Error {
    fn from(_refused: AllocFailed<T>) -> Error {
        ErrorKind::OutOfMemory.into()
    }
}

impl Write for Vec<u8> {
    fn write(&mut self, bytes: &[u8]) -> Result<usize> {
        self.extend_from_slice(bytes)?;
        Ok(bytes.len())
    }

    fn flush(&mut self) -> Result<()> {
        Ok(())
    }
}
