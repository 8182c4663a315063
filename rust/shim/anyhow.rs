//! What the programs that run rows use of the crate `anyhow`: any error, as its text.

use std::string::{String, ToString};

/// The text of an error.
pub struct Error(String);

/// A result whose error is any.
pub type Result<T, E = Error> = core::result::Result<T, E>;

impl Error {
    /// What `anyhow!(..)` makes.
    pub fn said(args: core::fmt::Arguments<'_>) -> Error {
        Error(std::format!("{args}"))
    }
}

impl<E: std::error::Error> From<E> for Error {
    fn from(error: E) -> Error {
        Error(error.to_string())
    }
}

impl core::fmt::Debug for Error {
    fn fmt(&self, f: &mut core::fmt::Formatter<'_>) -> core::fmt::Result {
        f.write_str(&self.0)
    }
}

impl core::fmt::Display for Error {
    fn fmt(&self, f: &mut core::fmt::Formatter<'_>) -> core::fmt::Result {
        f.write_str(&self.0)
    }
}

/// An error of formatted text.
macro_rules! said {
    ($($t:tt)*) => { $crate::anyhow::Error::said(::core::format_args!($($t)*)) };
}
pub(crate) use said as anyhow;
