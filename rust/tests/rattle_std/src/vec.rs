//! What tests and programs call of vectors and text beside what the cache does.

use crate::alloc::{AllocError, Global};
use crate::clone::TryClone;
use crate::string::String;

use luffapricot::proved::{foyer_core::Left, foyer_policy::Event};

pub use luffapricot::rattle_std::vec::*;

/// Returns a vector of these values.
pub fn of<T, const N: usize>(values: [T; N]) -> Result<Vec<T>, AllocError> {
    Collect::collect_with(values.into_iter(), Global)
}

/// `to_vec` of evictions, whose clone can fail.
pub trait LeavesToVec<T> {
    fn to_vec_with(&self, alloc: Global) -> Result<Vec<T>, AllocError>;
}

impl<K, V, P> LeavesToVec<(Event, Left<K, V, P>)> for [(Event, Left<K, V, P>)] {
    fn to_vec_with(&self, alloc: Global) -> Result<Vec<(Event, Left<K, V, P>)>, AllocError> {
        let mut all = Vec::with_capacity(alloc, self.len())?;
        for (event, left) in self {
            all.push_reserved((*event, left.try_clone()?));
        }
        Ok(all)
    }
}

pub trait MoreVec<T> {
    fn sort(&mut self) -> Result<(), AllocError>
    where
        T: Ord;
}

impl<T> MoreVec<T> for Vec<T> {
    fn sort(&mut self) -> Result<(), AllocError>
    where
        T: Ord,
    {
        self.as_mut_slice().sort();
        Ok(())
    }
}

pub trait MoreText {
    fn push_str(&mut self, text: &str) -> Result<(), AllocError>;
    fn as_str(&self) -> &str;
    fn into_bytes(self) -> Vec<u8>;
}

impl MoreText for String {
    fn push_str(&mut self, text: &str) -> Result<(), AllocError> {
        ::std::fmt::Write::write_str(self, text).map_err(|_| AllocError)
    }

    fn as_str(&self) -> &str {
        self
    }

    fn into_bytes(self) -> Vec<u8> {
        Collect::collect_with(self.bytes(), Global).expect("memory")
    }
}
