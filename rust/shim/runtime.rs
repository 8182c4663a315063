//! The process, as programs and tests have it in Rattle: a handle without a size, standard streams, words, and what a test fails with.

use super::alloc::{AllocError, AllocFailed, Global};
use super::fmt;
use super::string::String;
use super::vec::Vec;

/// The handle of the process, which Rattle gives to `main` and to tests.
#[derive(Clone, Copy, Debug)]
pub struct HostRuntime;

impl HostRuntime {
    /// The allocator.
    pub fn alloc(&self) -> Global {
        Global
    }

    /// Standard input.
    pub fn stdin(&self) -> Stdin {
        Stdin
    }

    /// Standard output, as Rust has it: a line at a time.
    pub fn stdout(&self) -> std::io::Stdout {
        std::io::stdout()
    }

    /// Standard error.
    pub fn stderr(&self) -> std::io::Stderr {
        std::io::stderr()
    }
}

/// Standard input.
pub struct Stdin;

impl std::io::Read for Stdin {
    fn read(&mut self, buffer: &mut [u8]) -> std::io::Result<usize> {
        std::io::stdin().read(buffer)
    }
}

impl Stdin {
    /// Appends all that is left of the input; how many bytes that is.
    pub fn read_to_string(&mut self, text: &mut String) -> std::io::Result<usize> {
        let all = std::io::read_to_string(std::io::stdin())?;
        text.push_str(&all)?;
        Ok(all.len())
    }
}

/// What `println!(rt; ..)` does.
pub fn print_line(_: &HostRuntime, args: fmt::Arguments<'_>) -> std::io::Result<()> {
    use std::io::Write;
    writeln!(std::io::stdout(), "{args}")
}

/// What `eprint!(rt; ..)` does.
pub fn eprint_text(_: &HostRuntime, args: fmt::Arguments<'_>) -> std::io::Result<()> {
    use std::io::Write;
    std::io::stderr().write_fmt(args)
}

impl From<AllocError> for std::io::Error {
    fn from(_: AllocError) -> std::io::Error {
        std::io::ErrorKind::OutOfMemory.into()
    }
}

impl<T> From<AllocFailed<T>> for std::io::Error {
    fn from(_: AllocFailed<T>) -> std::io::Error {
        std::io::ErrorKind::OutOfMemory.into()
    }
}

impl std::io::Write for Vec<u8> {
    fn write(&mut self, bytes: &[u8]) -> std::io::Result<usize> {
        self.extend_from_slice(bytes)?;
        Ok(bytes.len())
    }

    fn flush(&mut self) -> std::io::Result<()> {
        Ok(())
    }
}

/// `std::process` of Rattle.
pub mod process {
    pub use std::process::*;
}

/// `std::io` of Rattle.
pub mod io {
    pub use std::io::*;
}

/// `std::test` of Rattle.
pub mod test {
    /// Why a test failed: any error, or a text.
    #[derive(Debug)]
    #[allow(dead_code)]
    pub struct Fail(std::string::String);

    impl<E: Into<std::boxed::Box<dyn std::error::Error>>> From<E> for Fail {
        fn from(error: E) -> Fail {
            Fail(std::format!("{:?}", error.into()))
        }
    }
}

/// `std::env` of Rattle.
pub mod env {
    use super::{HostRuntime, String};

    /// The process's words; an error of the kind `InvalidData` if one isn't UTF-8.
    pub fn args(_: &HostRuntime) -> std::io::Result<std::vec::IntoIter<String>> {
        let mut words = std::vec::Vec::new();
        for word in std::env::args_os() {
            let text = word.into_string().map_err(|_| std::io::Error::from(std::io::ErrorKind::InvalidData))?;
            words.push(String::from(text));
        }
        Ok(words.into_iter())
    }
}
