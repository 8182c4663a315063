//! Writes the transcript of the program that its one word names, for the tests: `sctp-transcript sctp_rows < crates/sctp_rows/stdin`.

use std::env;
use std::process::ExitCode;

/// The status for a word that names no program.
const WRONG_WORDS: u8 = 64;

fn main() -> ExitCode {
    let name = env::args().nth(1).unwrap_or_default();
    sidorghu_programs::transcript(&name).unwrap_or_else(|| {
        eprintln!("sctp-transcript: no program is named {name:?}");
        ExitCode::from(WRONG_WORDS)
    })
}
