//! A request for help is answered at once, on standard output. The proved programs take it for a wrong word: usage on standard error, status 1.

use std::env;
use std::ffi::OsStr;
use std::io::{self, Write};
use std::process::ExitCode;
use std::vec::Vec;

use crate::rattle_std::runtime::HostRuntime;

/// The status of a program that couldn't write, as the proved programs have it.
const FAILED: u8 = 3;

/// Whether these words of a program, its own name aside, ask for help: `--help` or `-h` is among them, or `help` stands alone.
pub fn is_asked<W: AsRef<OsStr>>(words: &[W]) -> bool {
    let is_alone = matches!(words, [word] if word.as_ref() == "help");
    is_alone || words.iter().any(|word| word.as_ref() == "--help" || word.as_ref() == "-h")
}

/// Writes the usage if help is asked for, else runs the program.
pub fn or_else(usage: &str, program: fn(HostRuntime) -> ExitCode) -> ExitCode {
    let words: Vec<_> = env::args_os().skip(1).collect();
    if !is_asked(&words) {
        return program(HostRuntime);
    }
    match written(usage) {
        Ok(()) => ExitCode::SUCCESS,
        Err(_) => ExitCode::from(FAILED),
    }
}

fn written(usage: &str) -> io::Result<()> {
    let mut output = io::stdout();
    output.write_all(usage.as_bytes())?;
    output.flush()
}
