//! Weights in bytes.

// Written by rust/erase/erase.py from crates/foyer_memory/src/bytes.rt: change that.
#[allow(unused_imports)]
use crate::rattle_std::prelude::*;
use crate::proved::foyer_core::Weighter;

/// Text or bytes, weighed by their length. The struct that holds them doesn't count.
pub trait ByteLen {
    /// Returns the length in bytes.
    fn byte_len(&self) -> usize;
}

impl ByteLen for String {
    #[inline]
    fn byte_len(&self) -> usize {
        self.len()
    }
}

impl ByteLen for &'static str {
    #[inline]
    fn byte_len(&self) -> usize {
        self.len()
    }
}

impl ByteLen for Vec<u8> {
    #[inline]
    fn byte_len(&self) -> usize {
        self.len()
    }
}

/// Each record weighs the bytes of its key and its value, at most 2^64 - 1.
#[derive(Clone, Copy, Debug, Default)]
pub struct Bytes;

impl<K: ByteLen, V: ByteLen> Weighter<K, V> for Bytes {
    #[inline]
    fn weigh(&self, key: &K, value: &V) -> usize {
        key.byte_len().saturating_add(value.byte_len())
    }
}
