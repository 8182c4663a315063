//! The program `sctp-end`: one end, line by line.

use std::process::ExitCode;

fn main() -> ExitCode {
    sidorghu_programs::end()
}
