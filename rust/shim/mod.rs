//! What the erased sources use of Rattle's std, over Rust's `core` and `alloc`: lists whose growth can fail, and the handle of the process.
//!
//! Each function stands for the one of the same name in Rattle's std and keeps its contract: its comment says the contract where Rust's differs.
//! No function ends the process where an allocation fails. The lists deref to slices alone, so that a method which isn't here is an error of rustc,
//! and never a call of one of Rust's that ends the process. What has `unsafe` is `boxed`, `sync` and `ffi`.
#![deny(unsafe_op_in_unsafe_fn)]

#[cfg(not(target_pointer_width = "64"))]
compile_error!("sidorghu is proved for a usize of 64 bits: on this target casts of 64-bit numbers to usize would lose bits, so it isn't built");

pub use core::{cell, fmt, marker, mem, ops, ptr, str};

pub mod alloc;
pub mod boxed;
pub mod collections;
pub mod ffi;
mod lists;
pub(crate) mod macros;
mod maps;
#[cfg(any(test, feature = "std"))]
pub mod runtime;
pub mod simd;
pub mod string;
pub mod sync;
pub mod vec;

pub(crate) use macros::{assert_eq_with as assert_eq, assert_ne_with as assert_ne, assert_with as assert, format_in as format, vec_in as vec};
#[cfg(any(test, feature = "std"))]
pub(crate) use macros::{eprint_to as eprint, println_to as println};
#[cfg(any(test, feature = "std"))]
pub use runtime::{env, io, process, test};

/// The names that Rattle has without an import.
pub mod prelude {
    pub use super::alloc::CollectIn;
    pub use super::boxed::Box;
    #[cfg(any(test, feature = "std"))]
    pub use super::runtime::HostRuntime;
    pub use super::string::String;
    pub use super::vec::Vec;
    pub use core::str;
}
