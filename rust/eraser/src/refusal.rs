//! What ends an erasure: a form that has no row.

use std::fmt;

/// A form that the eraser doesn't know, or a source that it can't read.
#[derive(Clone, Debug, PartialEq, Eq)]
pub struct Refusal {
    /// The source's path, or what else was to be read.
    pub file: String,
    /// The line of the form, from 1.
    pub line: usize,
    /// What is wrong there.
    pub what: String,
}

impl fmt::Display for Refusal {
    fn fmt(&self, f: &mut fmt::Formatter<'_>) -> fmt::Result {
        write!(f, "{}:{}: {}", self.file, self.line, self.what)
    }
}

impl std::error::Error for Refusal {}

/// What is wrong, and the byte of the source at which it begins.
#[derive(Clone, Debug, PartialEq, Eq)]
pub(crate) struct Unknown {
    pub(crate) at: usize,
    pub(crate) what: String,
}

impl Unknown {
    pub(crate) fn new(at: usize, what: impl Into<String>) -> Unknown {
        let what = what.into();
        Unknown { at, what }
    }

    /// The same with the name of the file and the line.
    pub(crate) fn of_file(self, file: &str, text: &str) -> Refusal {
        let line = text[..self.at.min(text.len())].matches('\n').count() + 1;
        Refusal { file: file.to_string(), line, what: self.what }
    }
}
