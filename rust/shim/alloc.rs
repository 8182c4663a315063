//! `std::alloc` of Rattle: the allocator's name, and what a failed allocation answers.

use super::fmt;
use super::vec::Vec;

/// Rust's global allocator. It has no size: every list is on it.
#[derive(Clone, Copy, Debug, Default, PartialEq, Eq)]
#[repr(C)]
pub struct Global;

/// A type that names an allocator. There is one.
pub trait Allocator {}

impl Allocator for Global {}

/// An allocation failed.
#[derive(Clone, Copy, Debug, PartialEq, Eq)]
pub struct AllocError;

impl fmt::Display for AllocError {
    fn fmt(&self, f: &mut fmt::Formatter<'_>) -> fmt::Result {
        f.write_str("memory allocation failed")
    }
}

impl core::error::Error for AllocError {}

impl From<AllocError> for fmt::Error {
    fn from(_: AllocError) -> fmt::Error {
        fmt::Error
    }
}

/// An allocation failed; here is what was to be stored.
pub struct AllocFailed<T> {
    /// What the caller gave.
    pub value: T,
}

impl<T> fmt::Debug for AllocFailed<T> {
    fn fmt(&self, f: &mut fmt::Formatter<'_>) -> fmt::Result {
        f.write_str("AllocFailed")
    }
}

impl<T> fmt::Display for AllocFailed<T> {
    fn fmt(&self, f: &mut fmt::Formatter<'_>) -> fmt::Result {
        fmt::Display::fmt(&AllocError, f)
    }
}

impl<T> core::error::Error for AllocFailed<T> {}

impl<T> From<AllocFailed<T>> for AllocError {
    fn from(_: AllocFailed<T>) -> AllocError {
        AllocError
    }
}

/// `Iterator::collect(alloc)` of Rattle.
pub trait CollectIn: Iterator + Sized {
    /// All items in a list, in order; if an allocation fails, they are dropped.
    fn collect_in(self, alloc: Global) -> Result<Vec<Self::Item>, AllocError> {
        let mut made = Vec::new(alloc);
        for item in self {
            made.push(item)?;
        }
        Ok(made)
    }
}

impl<I: Iterator> CollectIn for I {}
