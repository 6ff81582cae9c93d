//! Tests that fail by an error, and `expect` on what need not print.

use ::std::error::Error;
use ::std::fmt;
use ::std::panic::Location;

/// Why a test failed, and where.
pub struct Fail(String);

impl<E: Into<Box<dyn Error>>> From<E> for Fail {
    #[track_caller]
    fn from(error: E) -> Fail {
        Fail(format!("{:?} at {}", error.into(), Location::caller()))
    }
}

impl fmt::Debug for Fail {
    fn fmt(&self, f: &mut fmt::Formatter<'_>) -> fmt::Result {
        f.write_str(&self.0)
    }
}

/// `expect`, whose handle the eraser drops.
pub trait ExpectAt {
    type Value;

    fn expect_at(self, why: &str) -> Self::Value;
}

impl<T> ExpectAt for Option<T> {
    type Value = T;

    #[track_caller]
    fn expect_at(self, why: &str) -> T {
        self.expect(why)
    }
}

impl<T, E> ExpectAt for Result<T, E> {
    type Value = T;

    #[track_caller]
    fn expect_at(self, why: &str) -> T {
        self.ok().expect(why)
    }
}

/// `expect_err`, whose handle the eraser drops.
pub trait ExpectErrAt {
    type Error;

    fn expect_err_at(self, why: &str) -> Self::Error;
}

impl<T, E> ExpectErrAt for Result<T, E> {
    type Error = E;

    #[track_caller]
    fn expect_err_at(self, why: &str) -> E {
        self.err().expect(why)
    }
}
