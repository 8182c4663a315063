//! The library for C, `libsctp_endpoint.a` and `libsctp_endpoint.so`, by cargo alone: the calls of `sctp_endpoint.h` and `sctp_channels.h`, whose
//! sources are `crates/sctp_c` and those below it, erased when this crate is built (docs/RUST.md).
//!
//! By hand there are the library's memory (`memory`) and what a panic does (`stopping`); memory comes from the program's three functions, which
//! `libsctp_endpoint_malloc.a` has by malloc. Built by a profile that unwinds, as tests are, it has std's panic handler in place of its own.
#![no_std]

extern crate alloc;
#[cfg(panic = "unwind")]
extern crate std;

#[allow(dead_code)]
#[path = "../../shim/arrayvec.rs"]
mod arrayvec;
#[path = "../../shim/byteorder.rs"]
mod byteorder;
#[cfg(feature = "fast-checksum")]
#[path = "../../shim/fast_checksum.rs"]
mod fast_checksum;
mod memory;
#[allow(dead_code, unused_imports, unused_macros)]
#[path = "../../shim/mod.rs"]
mod rattle_std;
#[path = "../../shim/sha2.rs"]
mod sha2;
#[cfg(panic = "abort")]
mod stopping;

include!(concat!(env!("OUT_DIR"), "/erased.rs"));
