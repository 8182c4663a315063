//! The program `sctp-trace`: two ends that run a script.

use std::process::ExitCode;

fn main() -> ExitCode {
    sidorghu_programs::trace()
}
