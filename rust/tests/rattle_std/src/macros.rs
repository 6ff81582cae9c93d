//! The macros that are passed a handle or an allocator, which the eraser drops.

pub use ::std::{assert, assert_eq, assert_ne, panic, unreachable};

#[macro_export]
#[doc(hidden)]
macro_rules! to_stream {
    ($write:ident, $stream:ident, $($text:tt)*) => {{
        use ::std::io::Write;
        ::std::$write!(::std::io::$stream(), $($text)*)
    }};
}

#[macro_export]
#[doc(hidden)]
macro_rules! print_in {
    ($($text:tt)*) => { $crate::to_stream!(write, stdout, $($text)*) };
}

#[macro_export]
#[doc(hidden)]
macro_rules! println_in {
    ($($text:tt)*) => { $crate::to_stream!(writeln, stdout, $($text)*) };
}

#[macro_export]
#[doc(hidden)]
macro_rules! eprint_in {
    ($($text:tt)*) => { $crate::to_stream!(write, stderr, $($text)*) };
}

#[macro_export]
#[doc(hidden)]
macro_rules! eprintln_in {
    ($($text:tt)*) => { $crate::to_stream!(writeln, stderr, $($text)*) };
}

#[macro_export]
#[doc(hidden)]
macro_rules! format_in {
    ($($text:tt)*) => {
        ::std::result::Result::<$crate::string::String, $crate::alloc::AllocError>::Ok(
            $crate::string::String::from(::std::format!($($text)*)),
        )
    };
}

#[macro_export]
#[doc(hidden)]
macro_rules! vec_in {
    ($value:expr; $n:expr) => {
        $crate::vec::Vec::from_elem($crate::alloc::Global, $value, $n)
    };
    ($($value:expr),* $(,)?) => {
        $crate::vec::of([$($value),*])
    };
}

pub use {
    eprint_in as eprint, eprintln_in as eprintln, format_in as format, print_in as print, println_in as println, vec_in as vec,
};
