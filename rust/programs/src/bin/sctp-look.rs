//! The program `sctp-look`: a run as a picture.

use std::process::ExitCode;

fn main() -> ExitCode {
    sidorghu_programs::look()
}
