//! What the programs use of the crate `clap`: a subcommand, and words behind it.

use crate::rattle_std::alloc::{AllocError, Global};
use crate::rattle_std::string::String;
use error::ErrorKind;
use std::vec::Vec;

/// Why words aren't a command.
pub mod error {
    /// What kind of fault it is.
    #[derive(Clone, Copy, Debug, PartialEq, Eq)]
    pub enum ErrorKind {
        /// A word that no argument takes.
        UnknownArgument,
        /// A first word that is no subcommand.
        InvalidSubcommand,
        /// A word is missing.
        MissingRequiredArgument,
        /// The subcommand is missing.
        MissingSubcommand,
        /// No fault: the usage is asked for.
        DisplayHelp,
        /// An allocation failed.
        OutOfMemory,
    }

    impl ErrorKind {
        /// The fault in words; None for what is no fault.
        pub fn as_str(self) -> Option<&'static str> {
            match self {
                ErrorKind::UnknownArgument => Some("unexpected argument found"),
                ErrorKind::InvalidSubcommand => Some("unrecognized subcommand"),
                ErrorKind::MissingRequiredArgument => Some("one or more required arguments were not provided"),
                ErrorKind::MissingSubcommand => Some("a subcommand is required but one was not provided"),
                ErrorKind::OutOfMemory => Some("out of memory"),
                ErrorKind::DisplayHelp => None,
            }
        }
    }
}

/// Why words aren't a command.
pub struct Error(ErrorKind);

impl Error {
    /// What kind of fault it is.
    pub fn kind(&self) -> ErrorKind {
        self.0
    }
}

impl From<AllocError> for Error {
    fn from(_: AllocError) -> Error {
        Error(ErrorKind::OutOfMemory)
    }
}

/// A word behind a subcommand.
pub struct Arg<'a> {
    name: &'a str,
    is_required: bool,
}

impl<'a> Arg<'a> {
    /// A word that may be missing.
    pub fn new(_: Global, name: &'a str) -> Arg<'a> {
        Arg { name, is_required: false }
    }

    /// Whether it must be there.
    pub fn required(mut self, is: bool) -> Arg<'a> {
        self.is_required = is;
        self
    }
}

/// A command or a subcommand.
pub struct Command<'a> {
    name: &'a str,
    args: Vec<Arg<'a>>,
    below: Vec<Command<'a>>,
    needs_subcommand: bool,
}

impl<'a> Command<'a> {
    /// A command that takes nothing.
    pub fn new(_: Global, name: &'a str) -> Command<'a> {
        Command { name, args: Vec::new(), below: Vec::new(), needs_subcommand: false }
    }

    /// Whether a subcommand must be there.
    pub fn subcommand_required(mut self, is: bool) -> Command<'a> {
        self.needs_subcommand = is;
        self
    }

    /// One subcommand more.
    pub fn subcommand(mut self, it: Command<'a>) -> Result<Command<'a>, AllocError> {
        self.below.try_reserve(1).map_err(|_| AllocError)?;
        self.below.push(it);
        Ok(self)
    }

    /// One word more.
    pub fn arg(mut self, it: Arg<'a>) -> Result<Command<'a>, AllocError> {
        self.args.try_reserve(1).map_err(|_| AllocError)?;
        self.args.push(it);
        Ok(self)
    }

    /// The subcommand of the process's words, and the words behind it.
    pub fn try_get_matches_from<'w>(self, words: &'w [String]) -> Result<ArgMatches<'w>, Error>
    where
        'a: 'w,
    {
        let mut words = words.iter().skip(1).map(String::as_str);
        let Some(first) = words.next() else {
            return if self.needs_subcommand { Err(Error(ErrorKind::MissingSubcommand)) } else { Ok(ArgMatches { chosen: "", values: Vec::new() }) };
        };
        if first == "help" || is_help(first) {
            return Err(Error(ErrorKind::DisplayHelp));
        }
        if is_option(first) {
            return Err(Error(ErrorKind::UnknownArgument));
        }
        match self.below.iter().find(|it| it.name == first) {
            Some(chosen) => chosen.words(words),
            None => Err(Error(ErrorKind::InvalidSubcommand)),
        }
    }

    /// The words behind a subcommand; behind `--` none is an option.
    fn words<'w>(&self, words: impl Iterator<Item = &'w str>) -> Result<ArgMatches<'w>, Error>
    where
        'a: 'w,
    {
        let mut values = Vec::new();
        let mut is_plain = false;
        for word in words {
            if !is_plain && word == "--" {
                is_plain = true;
                continue;
            }
            if !is_plain && is_help(word) {
                return Err(Error(ErrorKind::DisplayHelp));
            }
            if !is_plain && is_option(word) || values.len() == self.args.len() {
                return Err(Error(ErrorKind::UnknownArgument));
            }
            values.try_reserve(1).map_err(|_| AllocError)?;
            values.push((self.args[values.len()].name, word));
        }
        if self.args.iter().skip(values.len()).any(|it| it.is_required) {
            return Err(Error(ErrorKind::MissingRequiredArgument));
        }
        Ok(ArgMatches { chosen: self.name, values })
    }
}

fn is_help(word: &str) -> bool {
    word == "-h" || word == "--help"
}

fn is_option(word: &str) -> bool {
    word.starts_with('-') && word != "-"
}

/// The subcommand that was found, and its words by name.
pub struct ArgMatches<'w> {
    chosen: &'w str,
    values: Vec<(&'w str, &'w str)>,
}

impl<'w> ArgMatches<'w> {
    /// The words of this subcommand, if it was found.
    pub fn subcommand_matches(&self, name: &str) -> Option<&Self> {
        (self.chosen == name).then_some(self)
    }

    /// The word of this name, if it was there.
    pub fn get_str(&self, name: &str) -> Option<&'w str> {
        self.values.iter().find(|it| it.0 == name).map(|it| it.1)
    }
}
