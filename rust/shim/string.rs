//! `std::string` of Rattle: a `String` whose growth can fail.

use super::alloc::{AllocError, Global};
use super::fmt;
use super::ops::Deref;

/// Text that can grow. If growth fails, the text is as it was.
#[derive(PartialEq, Eq, Debug)]
pub struct String(::alloc::string::String);

impl String {
    /// No text, in no block.
    pub const fn new(_: Global) -> String {
        String(::alloc::string::String::new())
    }

    /// A copy of a text, in a block of just its size.
    pub fn from_str(alloc: Global, text: &str) -> Result<String, AllocError> {
        let mut made = String::new(alloc);
        made.0.try_reserve_exact(text.len()).map_err(|_| AllocError)?;
        made.0.push_str(text);
        Ok(made)
    }

    /// What `format!(in alloc; ..)` makes.
    pub fn written(alloc: Global, args: fmt::Arguments<'_>) -> Result<String, AllocError> {
        let mut made = String::new(alloc);
        made.write_fmt(args)?;
        Ok(made)
    }

    /// A copy, in a block of its own.
    #[allow(clippy::should_implement_trait)]
    pub fn clone(&self) -> Result<String, AllocError> {
        String::from_str(Global, &self.0)
    }

    /// Appends a text.
    pub fn push_str(&mut self, text: &str) -> Result<(), AllocError> {
        self.0.try_reserve(text.len()).map_err(|_| AllocError)?;
        self.0.push_str(text);
        Ok(())
    }

    /// Appends a character.
    pub fn push(&mut self, c: char) -> Result<(), AllocError> {
        self.push_str(c.encode_utf8(&mut [0; 4]))
    }

    /// Appends formatted text, as `write!` does; if it fails, a beginning of it may have been appended.
    pub fn write_fmt(&mut self, args: fmt::Arguments<'_>) -> Result<(), AllocError> {
        fmt::Write::write_fmt(self, args).map_err(|_| AllocError)
    }

    /// The text.
    pub fn as_str(&self) -> &str {
        &self.0
    }

    /// No text is left; the block stays.
    pub fn clear(&mut self) {
        self.0.clear();
    }
}

impl fmt::Write for String {
    fn write_str(&mut self, text: &str) -> fmt::Result {
        self.push_str(text).map_err(|_| fmt::Error)
    }
}

impl Deref for String {
    type Target = str;

    fn deref(&self) -> &str {
        &self.0
    }
}

impl fmt::Display for String {
    fn fmt(&self, f: &mut fmt::Formatter<'_>) -> fmt::Result {
        fmt::Display::fmt(&self.0, f)
    }
}

impl From<::alloc::string::String> for String {
    fn from(text: ::alloc::string::String) -> String {
        String(text)
    }
}
