//! The shim beside what Rattle's std promises of each function, with allocations that are refused.
#![no_std]

extern crate alloc;
extern crate std;

#[path = "../../../shim/arrayvec.rs"]
mod arrayvec;
#[path = "../../../shim/byteorder.rs"]
mod byteorder;
#[allow(dead_code, unused_imports, unused_macros)]
#[path = "../../../shim/mod.rs"]
mod rattle_std;
#[path = "../../../shim/sha2.rs"]
mod sha2;

mod blocks;
mod deques;
mod hashes;
mod maps;
mod numbers;
mod refusing;
mod texts;
mod vecs;
