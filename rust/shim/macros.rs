//! Macros that take an allocator or the process's handle before their other words.

/// `format!(in alloc; ..)`: the text, or that an allocation failed.
macro_rules! format_in {
    (in $alloc:expr; $($t:tt)*) => { $crate::rattle_std::string::String::written($alloc, ::core::format_args!($($t)*)) };
}

/// `vec![in alloc; value; many]`: the list, or that an allocation failed.
macro_rules! vec_in {
    (in $alloc:expr; $value:expr; $many:expr) => {
        $crate::rattle_std::vec::Vec::of_value($alloc, $value, $many)
    };
}

/// `println!(rt; ..)`: a line on standard output, or the fault of it.
#[cfg(any(test, feature = "std"))]
macro_rules! println_to {
    ($rt:expr; $($t:tt)*) => { $crate::rattle_std::runtime::print_line(&$rt, ::core::format_args!($($t)*)) };
}

/// `eprint!(rt; ..)`: text on standard error, or the fault of it.
#[cfg(any(test, feature = "std"))]
macro_rules! eprint_to {
    ($rt:expr; $($t:tt)*) => { $crate::rattle_std::runtime::eprint_text(&$rt, ::core::format_args!($($t)*)) };
}

/// `assert!(rt; ..)` of a test.
macro_rules! assert_with {
    ($rt:expr; $($t:tt)*) => { ::core::assert!($($t)*) };
}

/// `assert_eq!(rt; ..)` of a test.
macro_rules! assert_eq_with {
    ($rt:expr; $($t:tt)*) => { ::core::assert_eq!($($t)*) };
}

/// `assert_ne!(rt; ..)` of a test.
macro_rules! assert_ne_with {
    ($rt:expr; $($t:tt)*) => { ::core::assert_ne!($($t)*) };
}

pub(crate) use {assert_eq_with, assert_ne_with, assert_with, format_in, vec_in};
#[cfg(any(test, feature = "std"))]
pub(crate) use {eprint_to, println_to};
