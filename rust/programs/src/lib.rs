//! The programs of this repository, compiled from the erased sources: each is the `main` of its crate in `crates/`.
//!
//! The three programs for users answer a request for help themselves, on standard output. Every other word, line and status is the proved
//! program's.
#![no_std]

extern crate alloc;
extern crate std;

#[path = "../../shim/anyhow.rs"]
mod anyhow;
#[path = "../../shim/arrayvec.rs"]
mod arrayvec;
#[path = "../../shim/byteorder.rs"]
mod byteorder;
#[path = "../../shim/clap.rs"]
mod clap;
#[path = "../../shim/hex.rs"]
mod hex;
#[path = "../../shim/itoa.rs"]
mod itoa;
#[allow(dead_code, unused_imports, unused_macros)] // the shim has what any of the crates needs
#[path = "../../shim/mod.rs"]
mod rattle_std;
#[path = "../../shim/sha2.rs"]
mod sha2;

include!(concat!(env!("OUT_DIR"), "/erased.rs"));

#[cfg(test)]
mod counted;
mod help;
#[cfg(test)]
mod sockets;

use rattle_std::runtime::HostRuntime;
use std::process::{ExitCode, Termination};

pub use help::is_asked;

/// Runs `sctp-trace`: 0 if the script was run to its end, 1 if the words are wrong, 2 at a fault of the input, 3 if reading, writing or an
/// allocation failed.
pub fn trace() -> ExitCode {
    help::or_else(sctp_trace::USAGE, sctp_trace_main::main)
}

/// Runs `sctp-end`, with the exit statuses of [`trace`].
pub fn end() -> ExitCode {
    help::or_else(sctp_end::USAGE, sctp_end_main::main)
}

/// Runs `sctp-look`, with the exit statuses of [`trace`].
pub fn look() -> ExitCode {
    help::or_else(sctp_look::USAGE, sctp_look_main::main)
}

/// Runs the program of this name that writes a stored transcript; `None` if there is none.
pub fn transcript(name: &str) -> Option<ExitCode> {
    Some(match name {
        "sctp_rows" => sctp_rows::main(HostRuntime).report(),
        "sctp_call_rows" => sctp_call_rows::main(HostRuntime).report(),
        "sctp_channel_rows" => sctp_channel_rows::main(HostRuntime).report(),
        "sctp_broken" => sctp_broken::main(HostRuntime).report(),
        "sctp_example" => sctp_example::main(HostRuntime).report(),
        _ => return None,
    })
}
